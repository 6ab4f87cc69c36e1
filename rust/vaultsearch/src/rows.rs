//! A list of occurrences, written in each format; `lines.rs` has the lines of a query.

use crate::text;
use std::io::{Result, Write};
use vault::Occurrence;

#[derive(Clone, Copy, PartialEq)]
pub enum Format {
    Human,
    Tsv,
    JsonLines,
    Plain,
    Raw,
}

impl Format {
    pub fn of(name: &str) -> Option<Format> {
        Some(match name {
            "human" => Format::Human,
            "tsv" => Format::Tsv,
            "jsonl" => Format::JsonLines,
            "plain" => Format::Plain,
            "raw" => Format::Raw,
            _ => return None,
        })
    }
}

/// What a list is written with.
pub struct Labels {
    /// Each keyword's text, escaped.
    pub keywords: Vec<String>,
    /// File names by number, if they are known.
    pub names: Vec<Vec<u8>>,
    pub files: usize,
}

/// A JSON string.
pub fn json(text: &str) -> String {
    let mut string = String::from("\"");
    for c in text.chars() {
        match c {
            '"' => string.push_str("\\\""),
            '\\' => string.push_str("\\\\"),
            c if c.is_control() => string.push_str(&format!("\\u{:04x}", u32::from(c))),
            c => string.push(c),
        }
    }
    string.push('"');
    string
}

/// A name's fields in JSON: the name itself, or its escaped form where it isn't UTF-8.
pub fn json_name(name: &[u8]) -> String {
    match std::str::from_utf8(name) {
        Ok(name) => format!(",\"name\":{}", json(name)),
        Err(_) => format!(",\"name\":{},\"escaped\":true", json(&text::line(name))),
    }
}

impl Labels {
    /// A keyword's text, by its number.
    pub fn keyword(&self, keyword: u8) -> &str {
        self.keywords.get(usize::from(keyword)).map_or("?", |text| text)
    }

    /// A file's name, by its number, if it is known.
    pub fn name(&self, file: u32) -> Option<&[u8]> {
        self.names.get(file as usize).map(|name| &name[..])
    }

    /// The occurrences, each with its file's name in some form ("" if it isn't known), which is made once a file.
    fn each(
        &self,
        list: &[u8],
        form: impl Fn(&[u8]) -> String,
        mut write: impl FnMut(&Occurrence, &str, bool) -> Result<()>,
    ) -> Result<()> {
        let (mut file, mut name) = (None, String::new());
        for found in vault::occurrences(list) {
            let first = file != Some(found.file);
            if first {
                file = Some(found.file);
                name = self.name(found.file).map_or(String::new(), &form);
            }
            write(&found, &name, first)?;
        }
        Ok(())
    }
}

/// The whole list.
pub fn write(out: &mut dyn Write, format: Format, list: &[u8], labels: &Labels) -> Result<()> {
    match format {
        Format::Human => human(out, list, labels),
        Format::Tsv => tsv(out, list, labels),
        Format::JsonLines => json_lines(out, list, labels),
        Format::Plain => plain(out, list),
        Format::Raw => out.write_all(list),
    }
}

fn human(out: &mut dyn Write, list: &[u8], labels: &Labels) -> Result<()> {
    let mut files = 0;
    labels.each(list, text::line, |found, name, first| {
        if first {
            files += 1;
            let gap = if labels.names.is_empty() { "" } else { "  " };
            writeln!(out, "file {}{gap}{name}", found.file)?;
        }
        writeln!(out, "  {:>10}  {}", found.offset, labels.keyword(found.keyword))
    })?;
    let count = list.len() / vault::ROW;
    let s = |n: usize| if n == 1 { "" } else { "s" };
    writeln!(out, "{count} occurrence{} in {files} of {} file{}", s(count), labels.files, s(labels.files))
}

fn tsv(out: &mut dyn Write, list: &[u8], labels: &Labels) -> Result<()> {
    writeln!(out, "file\toffset\tkeyword\ttext\tname")?;
    labels.each(list, text::line, |found, name, _| {
        writeln!(out, "{}\t{}\t{}\t{}\t{name}", found.file, found.offset, found.keyword, labels.keyword(found.keyword))
    })
}

fn json_lines(out: &mut dyn Write, list: &[u8], labels: &Labels) -> Result<()> {
    let texts: Vec<String> = labels.keywords.iter().map(|text| json(text)).collect();
    labels.each(list, json_name, |found, name, _| {
        let text = texts.get(usize::from(found.keyword)).map_or("\"?\"", |text| text);
        let Occurrence { file, offset, keyword } = found;
        writeln!(out, "{{\"file\":{file},\"offset\":{offset},\"keyword\":{keyword},\"text\":{text}{name}}}")
    })
}

/// As document 01's program prints it.
fn plain(out: &mut dyn Write, list: &[u8]) -> Result<()> {
    writeln!(out, "finds {}", list.len() / vault::ROW)?;
    for found in vault::occurrences(list) {
        writeln!(out, "{} {} {}", found.file, found.offset, found.keyword)?;
    }
    Ok(())
}

#[cfg(test)]
mod tests {
    use super::*;

    fn written(format: Format, names: &[&[u8]]) -> String {
        let list = [[0, 0, 0, 0, 1, 0, 0, 0, 0], [0, 0, 0, 0, 3, 0, 0, 0, 0], [1, 0, 0, 0, 0, 1, 0, 0, 1]].concat();
        let labels = Labels {
            keywords: vec![text::ascii(b"AB\\\"A"), text::ascii(b"A\xff")],
            names: names.iter().map(|name| name.to_vec()).collect(),
            files: 3,
        };
        let mut out = Vec::new();
        write(&mut out, format, &list, &labels).unwrap();
        String::from_utf8(out).unwrap()
    }

    #[test]
    fn formats() {
        assert_eq!(written(Format::Plain, &[]), "finds 3\n0 1 0\n0 3 0\n1 256 1\n");
        assert_eq!(
            written(Format::Tsv, &[b"a"]),
            "file\toffset\tkeyword\ttext\tname\n0\t1\t0\tAB\\\\\"A\ta\n0\t3\t0\tAB\\\\\"A\ta\n1\t256\t1\tA\\xff\t\n"
        );
        let lines = written(Format::JsonLines, &[b"a", b"b\n"]);
        assert_eq!(
            lines.lines().next().unwrap(),
            "{\"file\":0,\"offset\":1,\"keyword\":0,\"text\":\"AB\\\\\\\\\\\"A\",\"name\":\"a\"}"
        );
        assert_eq!(
            lines.lines().last().unwrap(),
            "{\"file\":1,\"offset\":256,\"keyword\":1,\"text\":\"A\\\\xff\",\"name\":\"b\\u000a\"}"
        );
        let human = written(Format::Human, &[]);
        assert_eq!(human, "file 0\n           1  AB\\\\\"A\n           3  AB\\\\\"A\nfile 1\n         256  A\\xff\n3 occurrences in 2 of 3 files\n");
    }

    #[test]
    fn names_of_any_bytes() {
        let names: [&[u8]; 2] = [b"a\t\x1b[2J\\", b"b\xff\n"];
        let shown = ["a\\x09\\x1b[2J\\\\", "b\\xff\\x0a"];
        for format in [Format::Human, Format::Tsv] {
            let text = written(format, &names);
            assert!(shown.iter().all(|name| text.contains(name)), "{text}");
        }
        let lines = written(Format::JsonLines, &names);
        assert!(lines.contains("\"name\":\"a\\u0009\\u001b[2J\\\\\"}"), "{lines}");
        assert!(lines.contains("\"name\":\"b\\\\xff\\\\x0a\",\"escaped\":true}"), "{lines}");
    }
}
