//! The lines of a query, written in each format.

use crate::rows::{json, json_name, Format, Labels};
use crate::text;
use std::io::{Result, Write};
use vault::Line;

/// A query, and the bytes of its lines.
pub struct Answer<'a> {
    pub query: &'a [u8],
    pub bytes: &'a [u8],
}

impl Answer<'_> {
    fn lines(&self) -> impl ExactSizeIterator<Item = Line> + '_ {
        vault::lines(self.query, self.bytes)
    }

    /// A line's keyword numbers and offsets, in the query's order.
    fn steps<'a>(&'a self, line: &'a Line) -> impl Iterator<Item = (u8, u32)> + 'a {
        self.query.iter().copied().zip(line.offsets.iter().copied())
    }
}

/// All lines.
pub fn write(out: &mut dyn Write, format: Format, answer: &Answer, labels: &Labels) -> Result<()> {
    match format {
        Format::Human => human(out, answer, labels),
        Format::Tsv => tsv(out, answer, labels),
        Format::JsonLines => json_lines(out, answer, labels),
        Format::Plain => plain(out, answer),
        Format::Raw => out.write_all(answer.bytes),
    }
}

fn human(out: &mut dyn Write, answer: &Answer, labels: &Labels) -> Result<()> {
    for line in answer.lines() {
        let name = labels.name(line.file).map_or(String::new(), |name| format!("  {}", text::line(name)));
        writeln!(out, "file {}{name}", line.file)?;
        for (keyword, offset) in answer.steps(&line) {
            writeln!(out, "  {offset:>10}  {}", labels.keyword(keyword))?;
        }
    }
    let count = answer.lines().len();
    let (s, have) = (if labels.files == 1 { "" } else { "s" }, if count == 1 { "has" } else { "have" });
    writeln!(out, "{count} of {} file{s} {have} these keywords in this order", labels.files)
}

fn tsv(out: &mut dyn Write, answer: &Answer, labels: &Labels) -> Result<()> {
    writeln!(out, "file\tstep\toffset\tkeyword\ttext\tname")?;
    for line in answer.lines() {
        let name = labels.name(line.file).map_or(String::new(), text::line);
        for (step, (keyword, offset)) in answer.steps(&line).enumerate() {
            writeln!(out, "{}\t{step}\t{offset}\t{keyword}\t{}\t{name}", line.file, labels.keyword(keyword))?;
        }
    }
    Ok(())
}

fn json_lines(out: &mut dyn Write, answer: &Answer, labels: &Labels) -> Result<()> {
    for line in answer.lines() {
        let name = labels.name(line.file).map_or(String::new(), json_name);
        let step = |(keyword, offset): (u8, u32)| {
            format!("{{\"keyword\":{keyword},\"text\":{},\"offset\":{offset}}}", json(labels.keyword(keyword)))
        };
        let found: Vec<String> = answer.steps(&line).map(step).collect();
        writeln!(out, "{{\"file\":{}{name},\"found\":[{}]}}", line.file, found.join(","))?;
    }
    Ok(())
}

/// As `rows.rs` prints a list: the number of lines, then file and offsets by number.
fn plain(out: &mut dyn Write, answer: &Answer) -> Result<()> {
    writeln!(out, "lines {}", answer.lines().len())?;
    for line in answer.lines() {
        let offsets: Vec<String> = line.offsets.iter().map(u32::to_string).collect();
        writeln!(out, "{} {}", line.file, offsets.join(" "))?;
    }
    Ok(())
}

#[cfg(test)]
mod tests {
    use super::*;

    fn written(format: Format, names: &[&[u8]], bytes: &[u8]) -> String {
        let labels = Labels {
            keywords: vec![text::ascii(b"AB\\\"A"), text::ascii(b"A\xff")],
            names: names.iter().map(|name| name.to_vec()).collect(),
            files: 3,
        };
        let mut out = Vec::new();
        write(&mut out, format, &Answer { query: &[1, 0], bytes }, &labels).unwrap();
        String::from_utf8(out).unwrap()
    }

    const LINES: [u8; 24] = [0, 0, 0, 0, 1, 0, 0, 0, 0, 1, 0, 0, 2, 0, 0, 0, 0, 0, 0, 0, 0, 0, 1, 0];

    #[test]
    fn formats() {
        assert_eq!(written(Format::Plain, &[], &LINES), "lines 2\n0 1 256\n2 0 65536\n");
        let rows = ["0\t0\t1\t1\tA\\xff\ta", "0\t1\t256\t0\tAB\\\\\"A\ta", "2\t0\t0\t1\tA\\xff\t", "2\t1\t65536\t0\tAB\\\\\"A\t"];
        let tsv = written(Format::Tsv, &[b"a"], &LINES);
        assert_eq!(tsv, format!("file\tstep\toffset\tkeyword\ttext\tname\n{}\n", rows.join("\n")));
        assert_eq!(
            written(Format::JsonLines, &[b"a", b"b", b"c\n"], &LINES[12..]),
            "{\"file\":2,\"name\":\"c\\u000a\",\"found\":[{\"keyword\":1,\"text\":\"A\\\\xff\",\"offset\":0},\
             {\"keyword\":0,\"text\":\"AB\\\\\\\\\\\"A\",\"offset\":65536}]}\n"
        );
        assert_eq!(
            written(Format::Human, &[b"a", b"b", b"c\n"], &LINES[12..]),
            "file 2  c\\x0a\n           0  A\\xff\n       65536  AB\\\\\"A\n1 of 3 files has these keywords in this order\n"
        );
        assert_eq!(written(Format::Human, &[], &[]), "0 of 3 files have these keywords in this order\n");
    }
}
