//! The commands check and lookup.

use crate::commands::{refused, Done, Session};
use crate::failure::Failure;
use crate::input;
use crate::{output, text};
use std::path::Path;
use vault::forms::{Form, NEWEST};

/// What a check prints, and the first refusal.
#[derive(Default)]
struct Report {
    text: String,
    first: Option<Failure>,
}

impl Report {
    /// A file's verdict, with what is to be said of a good one.
    fn tell(&mut self, what: String, verdict: Result<String, vault::Error>) {
        match verdict {
            Ok(about) => self.text.push_str(&format!("{what}: good, {about}\n")),
            Err(error) => {
                self.text.push_str(&format!("{what}: {error}\n"));
                self.first.get_or_insert(Failure::Refused(what, error));
            }
        }
    }
}

impl Session<'_> {
    /// Each file that is named: good, or refused. Ends with the first refusal's status.
    pub fn check(&self) -> Done {
        let a = self.arguments;
        let nothing = || Failure::Usage("check wants --store, --index, --recipes or keywords".into());
        if a.plain.len() > 1 {
            return Err(nothing());
        }
        if a.recipes.is_some() && a.index.is_none() {
            return Err(Failure::Usage("recipes are checked against an index: give --index FILE too".into()));
        }
        self.keep_apart(&[])?;
        let mut report = Report::default();
        match self.given_keywords() {
            Ok(None) => (),
            Ok(Some(list)) => report.tell("keywords".into(), Ok(format!("{} of them", vault::keywords_of(&list).len()))),
            Err(Failure::Refused(what, error)) => report.tell(what, Err(error)),
            Err(other) => return Err(other),
        }
        if let Some(path) = &a.store {
            self.check_store(path, &mut report)?;
        }
        if let Some(path) = &a.index {
            self.check_index(path, &mut report)?;
        }
        if report.text.is_empty() {
            return Err(nothing());
        }
        output::standard(|out| out.write_all(report.text.as_bytes()))?;
        report.first.map_or(Ok(()), Err)
    }

    fn check_store(&self, path: &Path, report: &mut Report) -> Done {
        let store = self.read(path, &input::STORE)?;
        let verdict = self.progress.step("checking the store", 0, || vault::check_store(&store));
        report.tell(text::path(path), verdict.map(|()| about_store(&store)));
        if self.arguments.entries && verdict.is_ok() {
            report.text.push_str(&STORE.lines(&store));
        }
        Ok(())
    }

    /// An index, and recipes against it.
    fn check_index(&self, path: &Path, report: &mut Report) -> Done {
        let index = self.read(path, &input::INDEX)?;
        let verdict = self.progress.step("checking the index", 0, || vault::check_index(&index));
        report.tell(text::path(path), verdict.map(|()| format!("{} chunks, {}", chunk_count(&index), mark_of(&index))));
        if self.arguments.entries && verdict.is_ok() {
            let directory = Directory { start: 8 + list_length(&index), stride: 32, offset: 24, length: 28 };
            report.text.push_str(&directory.lines(&index));
        }
        let Some(path) = &self.arguments.recipes else { return Ok(()) };
        if verdict.is_err() {
            report.text.push_str(&format!("{}: not checked, since the index is refused\n", text::path(path)));
            return Ok(());
        }
        let recipes = self.read(path, &input::RECIPES)?;
        let verdict = self.progress.step("checking the recipes", 0, || vault::count(&index, &recipes));
        let about = verdict.map(|count| format!("{} files, {count} occurrences", count_at(&recipes, 0)));
        report.tell(text::path(path), about);
        Ok(())
    }

    pub fn lookup(&self) -> Done {
        let a = self.arguments;
        let [_, text] = &a.plain[..] else {
            return Err(Failure::Usage("lookup wants one FINGERPRINT".into()));
        };
        let key = from_hex(&text.to_string_lossy()).ok_or(Failure::Usage("a fingerprint is 40 hexadecimal digits".into()))?;
        self.keep_apart(&[])?;
        match (&a.store, &a.index) {
            (Some(path), None) => {
                let store = self.read(path, &input::STORE)?;
                let chunk = vault::find_chunk(&store, &key).map_err(refused(text::path(path)))?;
                let start = chunk.as_ptr() as usize - store.as_ptr() as usize;
                self.found(chunk, &format!("chunk of {} bytes at {start}\n{}\n", chunk.len(), text::ascii(chunk)))
            }
            (None, Some(path)) => {
                let index = self.read(path, &input::INDEX)?;
                let body = vault::find_body(&index, &key).map_err(refused(text::path(path)))?;
                let start = body.as_ptr() as usize - index.as_ptr() as usize;
                let keywords = vault::keywords_of(vault::keywords_in_index(&index));
                let said = explained(&Form::of(&index), body, &keywords);
                self.found(body, &format!("body of {} bytes at {start}, {}\n{said}", body.len(), mark_of(&index)))
            }
            _ => Err(Failure::Usage("lookup wants one of --store FILE and --index FILE".into())),
        }
    }

    /// Bytes to the output file, or what they say to standard output.
    fn found(&self, bytes: &[u8], text: &str) -> Done {
        match &self.arguments.output {
            Some(path) => output::write(Some(path), |out| out.write_all(bytes)),
            None => output::standard(|out| out.write_all(text.as_bytes())),
        }
    }
}

/// What a good index's mark says of it.
fn mark_of(index: &[u8]) -> String {
    let form = Form::of(index);
    match form == NEWEST {
        true => format!("mark {}", form.name()),
        false => format!("mark {} (older; a scan writes {})", form.name(), NEWEST.name()),
    }
}

/// A number of 4 bytes in a good file.
fn count_at(bytes: &[u8], at: usize) -> u32 {
    bytes.get(at..at + 4).map_or(0, |b| u32::from_le_bytes([b[0], b[1], b[2], b[3]]))
}

/// The number of chunks of a good store or index.
pub fn chunk_count(bytes: &[u8]) -> u32 {
    count_at(bytes, 4)
}

/// The length of a good index's keyword list.
fn list_length(index: &[u8]) -> usize {
    2 + vault::keywords_of(vault::keywords_in_index(index)).iter().map(|word| 1 + word.len()).sum::<usize>()
}

/// Where the directory of a good file starts, how many bytes an entry has, and where in it offset and length are.
struct Directory {
    start: usize,
    stride: usize,
    offset: usize,
    length: usize,
}

const STORE: Directory = Directory { start: 8, stride: 28, offset: 20, length: 24 };

impl Directory {
    /// Fingerprint, offset and length of each entry.
    fn entries<'a>(&'a self, bytes: &'a [u8]) -> impl Iterator<Item = (&'a [u8], u32, u32)> {
        let entry = move |k: usize| {
            let at = self.start + self.stride * k;
            (&bytes[at..at + 20], count_at(bytes, at + self.offset), count_at(bytes, at + self.length))
        };
        (0..chunk_count(bytes) as usize).map(entry)
    }

    /// A line for each entry.
    fn lines(&self, bytes: &[u8]) -> String {
        let mut text = String::new();
        for (key, offset, length) in self.entries(bytes) {
            let key: String = key.iter().map(|b| format!("{b:02x}")).collect();
            text.push_str(&format!("{key}\t{offset}\t{length}\n"));
        }
        text
    }
}

/// What a good store has: all but its directory and its chunks are holes.
fn about_store(store: &[u8]) -> String {
    let (count, data) = STORE.entries(store).fold((0, 0), |(count, data), (_, _, length)| (count + 1, data + length as usize));
    let holes = store.len() - (STORE.start + STORE.stride * count) - data;
    format!("{count} chunks, {data} bytes in them, {holes} bytes in holes")
}

/// Bytes from hexadecimal digits; any number of them, since the library judges the length.
fn from_hex(text: &str) -> Option<Vec<u8>> {
    let digits: Option<Vec<u8>> = text.chars().map(|c| c.to_digit(16).map(|d| d as u8)).collect();
    let digits = digits.filter(|d| d.len() % 2 == 0)?;
    Some(digits.chunks(2).map(|two| 16 * two[0] + two[1]).collect())
}

/// What a good body of that form says, a line for each record.
fn explained(form: &Form, body: &[u8], keywords: &[&[u8]]) -> String {
    let mut text = String::new();
    let mut at = 0;
    while at < body.len() {
        let k = usize::from(body[at]);
        let word = keywords.get(k).map_or(String::new(), |word| text::ascii(word));
        let (said, end) = if body[at + 1] == Form::SET { inner_starts(body, at) } else { ends_and_offsets(form, body, at) };
        text.push_str(&format!("keyword {k} ({word}): {said}\n"));
        at = end;
    }
    if text.is_empty() {
        text.push_str("no keyword has a record\n");
    }
    text
}

/// Numbers with a space between.
fn spaced(numbers: impl Iterator<Item = usize>) -> String {
    numbers.map(|number| number.to_string()).collect::<Vec<_>>().join(" ")
}

/// A set, of a chunk that is shorter than the keyword, and where the next record is.
fn inner_starts(body: &[u8], at: usize) -> (String, usize) {
    (format!("the chunk inside it at {}", spaced(Form::starts_at(body, at + 2).into_iter())), at + Form::SET_LENGTH)
}

/// A record of another kind, and where the next one is.
fn ends_and_offsets(form: &Form, body: &[u8], at: usize) -> (String, usize) {
    let (kind, width) = (body[at + 1], form.width);
    let (prefix, suffix) = match kind {
        0 => (body[at + 2] % 2, body[at + 2] / 2),
        _ => (body[at + 2], body[at + 3]),
    };
    let head = at + Form::HEAD;
    let (first, count) = match kind {
        0 => (at + 3, 0),
        1 => (head, usize::from(body[at + 4])),
        2 => (head + width, usize::from(body[at + 4])),
        _ => (head + 2 * width, form.field_at(body, head + width)),
    };
    let shown = spaced((0..count.min(20)).map(|o| form.field_at(body, first + width * o)));
    let more = if count > 20 { " .." } else { "" };
    let end = match kind {
        0 => at + 3,
        1 => head + width,
        _ => first + width * count,
    };
    (format!("prefix {prefix}, suffix {suffix}, {count} inside: {shown}{more}"), end)
}
