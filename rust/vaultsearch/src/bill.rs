//! A bill (request 110): which client each keyword is of, the running counts in a tally file, and the counts as they are written behind a list.

use crate::commands::number_of;
use crate::failure::Failure;
use crate::input::{self, Kind};
use crate::progress::Progress;
use crate::rows::{json_name, Format};
use crate::text;
use std::fs;
use std::io::{self, Write};
use std::path::Path;
use vault::{Tally, CLIENTS};

/// What --client says: a client's name, and a keyword of his; without one, all that no other client has.
pub struct Client {
    pub name: Vec<u8>,
    pub keyword: Option<Vec<u8>>,
}

impl Client {
    /// Of NAME=TEXT or NAME: the name ends at the first equals sign.
    pub fn of(value: &[u8]) -> Option<Client> {
        let end = value.iter().position(|b| *b == b'=').unwrap_or(value.len());
        let (name, keyword) = (value[..end].to_vec(), value.get(end + 1..).map(<[u8]>::to_vec));
        (!name.is_empty()).then_some(Client { name, keyword })
    }

    /// The option as it was given.
    fn shown(&self) -> String {
        let keyword = self.keyword.as_ref().map_or(String::new(), |keyword| format!("={}", text::ascii(keyword)));
        format!("--client {}{keyword}", text::line(&self.name))
    }
}

/// Four clients: their counts, and the names of those that have one.
#[derive(Clone, Default)]
struct Places {
    counts: [u64; CLIENTS],
    names: [Option<Vec<u8>>; CLIENTS],
}

impl Places {
    /// A tally's text: four lines, each a count and behind a space the client's name, if he has one.
    fn parse(path: &Path, bytes: &[u8]) -> Result<Places, Failure> {
        let lines: Vec<&[u8]> = bytes.strip_suffix(b"\n").unwrap_or(bytes).split(|b| *b == b'\n').collect();
        if lines.len() != CLIENTS {
            return Err(Failure::file(path, format!("no tally: it has {} lines, not {CLIENTS}", lines.len())));
        }
        let mut places = Places::default();
        for (place, line) in lines.iter().enumerate() {
            let (count, name) = parsed(line.strip_suffix(b"\r").unwrap_or(line)).ok_or_else(|| {
                Failure::file(path, format!("no tally: line {} is not a count from 0 to {}, and a name", place + 1, u64::MAX))
            })?;
            if name.is_some() && places.names.contains(&name) {
                return Err(Failure::file(path, format!("no tally: line {} has the name of another one", place + 1)));
            }
            (places.counts[place], places.names[place]) = (count, name);
        }
        Ok(places)
    }

    fn text(&self) -> String {
        let name = |name: &Option<Vec<u8>>| name.as_ref().map_or(String::new(), |name| format!(" {}", text::line(name)));
        self.counts.iter().zip(&self.names).map(|(count, named)| format!("{count}{}\n", name(named))).collect()
    }

    /// The place of a client: the one with his name, else the first without a name, which is his from now on.
    fn place(&mut self, name: &[u8]) -> Option<usize> {
        let named = self.names.iter().position(|other| other.as_deref() == Some(name));
        let place = named.or_else(|| self.names.iter().position(Option::is_none))?;
        self.names[place] = Some(name.to_vec());
        Some(place)
    }
}

/// A line of a tally.
fn parsed(line: &[u8]) -> Option<(u64, Option<Vec<u8>>)> {
    let end = line.iter().position(|b| !b.is_ascii_digit()).unwrap_or(line.len());
    let count = std::str::from_utf8(&line[..end]).ok()?.parse().ok()?;
    let name = match &line[end..] {
        [] => None,
        [b' ', escaped @ ..] if !escaped.is_empty() => {
            let mut name = Vec::new();
            text::unescape(escaped, &mut name)?;
            Some(name)
        }
        _ => return None,
    };
    Some((count, name))
}

/// The most bytes of a tally: four counts, and names of any use.
const TALLY: Kind = Kind::text("a tally", 1 << 16);

/// A tally file's bytes; none where there is no such file.
fn stored(progress: &Progress, path: &Path) -> Result<Option<Vec<u8>>, Failure> {
    match fs::metadata(path) {
        Ok(about) if about.is_file() => input::read(progress, path, &TALLY).map(Some),
        Ok(_) => Err(Failure::file(path, "a tally is a regular file, and this is none")),
        Err(error) if error.kind() == io::ErrorKind::NotFound => Ok(None),
        Err(error) => Err(Failure::file(path, error)),
    }
}

pub struct Bill<'a> {
    /// The client of each keyword.
    pub key: Vec<u8>,
    /// The counts, which a join adds to.
    pub tally: Tally,
    before: Tally,
    names: [Option<Vec<u8>>; CLIENTS],
    /// The places of the clients that are named, rising.
    clients: Vec<usize>,
    /// The tally file, and what it held.
    file: Option<(&'a Path, Option<Vec<u8>>)>,
}

impl<'a> Bill<'a> {
    /// Who each keyword of a good list is for, and the counts of the file, if one is named. `whose` is what the keywords are of.
    pub fn new(
        progress: &Progress,
        given: &[Client],
        file: Option<&'a Path>,
        list: &[u8],
        whose: &str,
    ) -> Result<Bill<'a>, Failure> {
        let held = file.map(|path| stored(progress, path)).transpose()?.flatten();
        let mut places = match (file, &held) {
            (Some(path), Some(bytes)) => Places::parse(path, bytes)?,
            _ => Places::default(),
        };
        let (key, clients) = key_of(given, &mut places, list, whose)?;
        let tally = Tally { counts: places.counts };
        Ok(Bill { key, tally, before: tally, names: places.names, clients, file: file.map(|path| (path, held)) })
    }

    /// The tally file and its new text, after it is seen that no one else has written it meanwhile.
    pub fn stored(&self, progress: &Progress) -> Result<Option<(&'a Path, String)>, Failure> {
        let Some((path, held)) = &self.file else { return Ok(None) };
        if stored(progress, path)? != *held {
            return Err(Failure::file(
                path,
                "another run has changed this tally meanwhile: nothing is added, run this one again",
            ));
        }
        Ok(Some((path, Places { counts: self.tally.counts, names: self.names.clone() }.text())))
    }

    /// The clients' counts, behind a list of that format.
    pub fn write(&self, out: &mut dyn Write, format: Format) -> io::Result<()> {
        match format {
            Format::Tsv => writeln!(out, "\nclient\tfound\ttotal\tname")?,
            Format::Plain => writeln!(out, "clients {}", self.clients.len())?,
            _ => (),
        }
        for place in &self.clients {
            let name = self.names[*place].as_deref().unwrap_or_default();
            let total = self.tally.counts[*place];
            let found = total - self.before.counts[*place];
            match format {
                Format::Human => {
                    let s = if found == 1 { "" } else { "s" };
                    let all = if self.file.is_some() { format!(", {total} in all") } else { String::new() };
                    writeln!(out, "client {}: {found} occurrence{s}{all}", text::line(name))?;
                }
                Format::Tsv => writeln!(out, "{place}\t{found}\t{total}\t{}", text::line(name))?,
                Format::JsonLines => {
                    writeln!(out, "{{\"client\":{place},\"found\":{found},\"total\":{total}{}}}", json_name(name))?
                }
                Format::Plain => writeln!(out, "{place} {found} {total}")?,
                Format::Raw => (),
            }
        }
        Ok(())
    }
}

/// The key, and the places of the clients given.
fn key_of(given: &[Client], places: &mut Places, list: &[u8], whose: &str) -> Result<(Vec<u8>, Vec<usize>), Failure> {
    let keywords: Vec<String> = vault::keywords_of(list).into_iter().map(text::ascii).collect();
    let mut owner: Vec<Option<usize>> = vec![None; keywords.len()];
    let (mut clients, mut rest) = (Vec::new(), None);
    for client in given {
        let wrong = |why: String| Failure::Usage(format!("{}: {why}", client.shown()));
        let fifth = || wrong(format!("a client more than {CLIENTS}, those of the tally among them"));
        let place = places.place(&client.name).ok_or_else(fifth)?;
        clients.push(place);
        let Some(keyword) = &client.keyword else {
            if rest.replace(place).is_some() {
                return Err(wrong("a second client of all keywords that are left".into()));
            }
            continue;
        };
        let unknown = || wrong(format!("no keyword of {whose} ({})", keywords.join(", ")));
        let k = usize::from(number_of(keyword, list).ok_or_else(unknown)?);
        if owner[k].replace(place).is_some() {
            return Err(wrong("this keyword has a client already".into()));
        }
    }
    let none =
        |k: usize| format!("{} has no client: give --client NAME={0}, or --client NAME for all that are left", keywords[k]);
    let entry = |k: usize| owner[k].or(rest).map(|place| place as u8).ok_or_else(|| Failure::Usage(none(k)));
    let key = (0..keywords.len()).map(entry).collect::<Result<Vec<u8>, _>>()?;
    clients.sort();
    clients.dedup();
    Ok((vault::key(&key), clients))
}

#[cfg(test)]
mod tests {
    use super::*;
    use std::array;

    fn places(text: &str) -> Result<Places, String> {
        Places::parse(Path::new("t"), text.as_bytes()).map_err(|failure| failure.to_string())
    }

    #[test]
    fn tallies() {
        for (text, counts) in [
            ("0\n0\n0\n0\n", [0; 4]),
            ("1\n2\n3\n18446744073709551615", [1, 2, 3, u64::MAX]),
            ("1 smith\n2 a b\n3\n4 \\xff\\\\\r\n", [1, 2, 3, 4]),
        ] {
            let places = places(text).unwrap();
            assert_eq!(places.counts, counts);
            let written = places.text();
            assert_eq!(written.trim_end(), text.trim_end());
        }
        let names = places("1 smith\n2 a b\n3\n4 \\xff\\\\\n").unwrap().names;
        assert_eq!(names, [Some(b"smith".to_vec()), Some(b"a b".to_vec()), None, Some(b"\xff\\".to_vec())]);
        for (text, said) in [
            ("", "it has 1 lines, not 4"),
            ("1\n2\n3\n", "it has 3 lines, not 4"),
            ("1\n2\n3\n4\n5\n", "it has 5 lines, not 4"),
            ("1\n2\n3\n4\n\n", "it has 5 lines, not 4"),
            ("1\n2\n3\n18446744073709551616\n", "line 4 is not a count from 0 to 18446744073709551615"),
            ("1\n-2\n3\n4\n", "line 2 is not a count"),
            ("1\n2\n+3\n4\n", "line 3 is not a count"),
            ("1\n2\n\n4\n", "line 3 is not a count"),
            ("1\n2smith\n3\n4\n", "line 2 is not a count"),
            ("1\n2 \n3\n4\n", "line 2 is not a count"),
            ("1\n2 \\q\n3\n4\n", "line 2 is not a count"),
            ("1 a\n2\n3\n4 a\n", "line 4 has the name of another one"),
        ] {
            let failure = places(text).map(|_| ()).unwrap_err();
            assert!(failure.contains(said), "{text:?}: {failure}");
        }
    }

    #[test]
    fn options() {
        let of = |value: &str| Client::of(value.as_bytes()).map(|client| (client.name, client.keyword));
        assert_eq!(of("smith=paid"), Some((b"smith".to_vec(), Some(b"paid".to_vec()))));
        assert_eq!(of("smith=a=b"), Some((b"smith".to_vec(), Some(b"a=b".to_vec()))));
        assert_eq!(of("smith="), Some((b"smith".to_vec(), Some(vec![]))));
        assert_eq!(of("smith"), Some((b"smith".to_vec(), None)));
        assert_eq!((of(""), of("=paid")), (None, None));
    }

    fn client(value: &str) -> Client {
        Client::of(value.as_bytes()).unwrap()
    }

    fn list() -> Vec<u8> {
        vec![3, 0, 3, b'A', b'B', b'A', 2, b'A', b'A', 1, b'X']
    }

    /// The clients of the three keywords and the places that are billed, with a tally of that text.
    fn keyed(given: &[&str], text: &str) -> Result<(Vec<u8>, Vec<usize>), String> {
        let given: Vec<Client> = given.iter().map(|value| client(value)).collect();
        let (key, clients) = key_of(&given, &mut places(text)?, &list(), "words").map_err(|failure| failure.to_string())?;
        assert_eq!(key[3..], [0; 13]);
        Ok((key[..3].to_vec(), clients))
    }

    const NEW: &str = "0\n0\n0\n0\n";

    #[test]
    fn keys() {
        for (given, text, key, clients) in [
            (&["a=ABA", "b=AA", "c=X"][..], NEW, [0, 1, 2], vec![0, 1, 2]),
            (&["a=ABA", "b=AA", "a=X"], NEW, [0, 1, 0], vec![0, 1]),
            (&["a"], NEW, [0, 0, 0], vec![0]),
            (&["b=AA", "a"], NEW, [1, 0, 1], vec![0, 1]),
            (&["a", "b=X", "a=AA"], NEW, [0, 0, 1], vec![0, 1]),
            (&["a", "b", "a=ABA"][..1], "1 b\n2\n3 a\n4\n", [2, 2, 2], vec![2]),
            // By their names in the tally, in whatever order; a new one takes a place without a name.
            (&["a=X", "b=AA", "c=ABA"], "1 b\n2\n3 a\n4\n", [1, 0, 2], vec![0, 1, 2]),
            (&["a=X", "d"], "1 a\n2 b\n3 c\n4 d\n", [3, 3, 0], vec![0, 3]),
        ] {
            assert_eq!(keyed(given, text), Ok((key.to_vec(), clients)), "{given:?}");
        }
        for (given, text, said) in [
            (&["a=ABA"][..], NEW, "AA has no client: give --client NAME=AA, or --client NAME for all"),
            (&["a=B", "b"], NEW, "--client a=B: no keyword of words (ABA, AA, X)"),
            (&["a=", "b"], NEW, "--client a=: no keyword of words"),
            (&["a=X", "b=X", "c"], NEW, "--client b=X: this keyword has a client already"),
            (&["a=X", "a=X", "c"], NEW, "--client a=X: this keyword has a client already"),
            (&["a", "b"], NEW, "--client b: a second client of all keywords that are left"),
            (&["a=X", "b=AA", "c", "d=ABA", "e"], NEW, "--client e: a client more than 4"),
            (&["e"], "1 a\n2 b\n3 c\n4 d\n", "--client e: a client more than 4"),
        ] {
            let failure = keyed(given, text).unwrap_err();
            assert!(failure.contains(said), "{given:?}: {failure}");
        }
    }

    #[test]
    fn formats() {
        let names = array::from_fn(|place| [Some(b"smith".to_vec()), None, Some(b"j\xff\"".to_vec()), None][place].clone());
        let (before, tally) = (Tally { counts: [9, 8, 7, 6] }, Tally { counts: [10, 8, 9, 6] });
        let bill = |file| Bill { key: vec![], tally, before, names: Clone::clone(&names), clients: vec![0, 2], file };
        let written = |format: Format, file: bool| {
            let mut out = Vec::new();
            bill(file.then_some((Path::new("t"), None))).write(&mut out, format).unwrap();
            String::from_utf8(out).unwrap()
        };
        assert_eq!(written(Format::Human, false), "client smith: 1 occurrence\nclient j\\xff\": 2 occurrences\n");
        assert_eq!(
            written(Format::Human, true),
            "client smith: 1 occurrence, 10 in all\nclient j\\xff\": 2 occurrences, 9 in all\n"
        );
        assert_eq!(written(Format::Tsv, true), "\nclient\tfound\ttotal\tname\n0\t1\t10\tsmith\n2\t2\t9\tj\\xff\"\n");
        assert_eq!(
            written(Format::JsonLines, true),
            "{\"client\":0,\"found\":1,\"total\":10,\"name\":\"smith\"}\n\
             {\"client\":2,\"found\":2,\"total\":9,\"name\":\"j\\\\xff\\\"\",\"escaped\":true}\n"
        );
        assert_eq!(written(Format::Plain, true), "clients 2\n0 1 10\n2 2 9\n");
        assert_eq!(written(Format::Raw, true), "");
    }
}
