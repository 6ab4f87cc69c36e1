//! The commands search, scan, join, query, compact and make-vault; `inspect.rs` has check and lookup.

use crate::arguments::{self, Arguments};
use crate::bill::Bill;
use crate::failure::Failure;
use crate::input::{self, Kind};
use crate::lines::{self, Answer};
use crate::progress::{size, Progress};
use crate::rows::{self, Format, Labels};
use crate::{identity, inspect, make_vault, names, output, text};
use std::ffi::OsString;
use std::io::Write;
use std::path::{Path, PathBuf};

pub type Done = Result<(), Failure>;

pub fn run(words: Vec<OsString>) -> Done {
    let arguments = arguments::read(words)?;
    if arguments.help {
        return output::standard(|out| out.write_all(include_bytes!("help.txt")));
    }
    if vault::IS_MOCK {
        text::say("vaultsearch: built with the feature mock: the unproved stand-in answers, not the proved library");
    }
    let progress = Progress { quiet: arguments.quiet };
    let session = Session { arguments: &arguments, progress: &progress };
    match arguments.command().as_str() {
        "search" => session.search(),
        "scan" => session.scan(),
        "join" => session.join(),
        "query" => session.query(),
        "check" => session.check(),
        "lookup" => session.lookup(),
        "compact" => session.compact(),
        _ => session.make_vault(),
    }
}

pub struct Session<'a> {
    pub arguments: &'a Arguments,
    pub progress: &'a Progress,
}

pub fn refused(what: impl Into<String>) -> impl FnOnce(vault::Error) -> Failure {
    move |error| Failure::Refused(what.into(), error)
}

/// A refusal of a call that makes its own buffer, or no memory for the buffer.
fn unmade(what: &str, told: impl FnOnce(vault::Error) -> Failure) -> impl FnOnce(vault::Failure) -> Failure {
    let what = what.to_string();
    move |failure| match failure {
        vault::Failure::Refused(error) => told(error),
        vault::Failure::Memory { bytes } => Failure::memory(&what, bytes),
    }
}

/// The input that a refusal of a join, a query or a compaction is about: the recipes, or the index or store that they are for.
fn recipes_refused(whole: &str, recipes: &Path) -> impl FnOnce(vault::Error) -> Failure {
    let (whole, recipes) = (whole.to_string(), text::path(recipes));
    move |error| match error.code {
        14..=17 => Failure::Refused(recipes, error),
        18 => Failure::Refused("the list".into(), error),
        21 => Failure::Refused("the query".into(), error),
        22 | 23 => Failure::Refused("the tally".into(), error),
        _ => Failure::Refused(whole, error),
    }
}

/// The input that a refusal of the scan is about.
fn scan_refused(store: &Path) -> impl FnOnce(vault::Error) -> Failure {
    let store = text::path(store);
    move |error| match error.code {
        1..=4 => Failure::Refused("keywords".into(), error),
        9 => Failure::Refused("the index".into(), error),
        _ => Failure::Refused(store, error),
    }
}

/// Keywords of a text: a line each, LF or CR LF; a byte-order mark and empty lines are not keywords.
fn lines(text: &[u8]) -> Vec<&[u8]> {
    let text = text.strip_prefix(b"\xEF\xBB\xBF").unwrap_or(text);
    let lines = text.split(|b| *b == b'\n').map(|line| line.strip_suffix(b"\r").unwrap_or(line));
    lines.filter(|line| !line.is_empty()).collect()
}

/// What a join reads, but for its index.
struct Recipes {
    path: PathBuf,
    bytes: Vec<u8>,
    names: Vec<Vec<u8>>,
}

impl Recipes {
    /// What a list or lines are written with: keywords of a good index, names of files.
    fn labels(self, index: &[u8]) -> Labels {
        let keywords = vault::keywords_of(vault::keywords_in_index(index)).into_iter().map(text::ascii).collect();
        let files = input::file_count(&self.bytes).unwrap_or(0) as usize;
        Labels { keywords, names: self.names, files }
    }
}

/// The number of a keyword in a good list, which may have more behind it: they compare as the list's fold flag says.
pub fn number_of(word: &[u8], list: &[u8]) -> Option<u8> {
    // Two keywords are one if a list of both is refused for it.
    let same = |keyword: &[u8]| vault::keyword_list(list[1] == 1, &[keyword, word]).is_err_and(|error| error.code == 4);
    vault::keywords_of(list).into_iter().position(same).map(|k| k as u8)
}

/// The numbers of these keywords in an index.
fn numbers_of(words: &[Vec<u8>], index: &[u8], path: &Path) -> Result<Vec<u8>, Failure> {
    vault::check_index(index).map_err(refused(text::path(path)))?;
    let list = vault::keywords_in_index(index);
    let number = |word: &Vec<u8>| {
        let known = vault::keywords_of(list).into_iter().map(text::ascii).collect::<Vec<_>>().join(", ");
        let unknown = || Failure::Usage(format!("--then {}: no keyword of {} ({known})", text::ascii(word), text::path(path)));
        number_of(word, list).ok_or_else(unknown)
    };
    words.iter().map(number).collect()
}

impl Session<'_> {
    /// The plain words behind the command, exactly these many.
    fn plain<const N: usize>(&self, names: [&str; N]) -> Result<[&Path; N], Failure> {
        let given: Vec<&Path> = self.arguments.plain[1..].iter().map(Path::new).collect();
        given.try_into().map_err(|_| Failure::Usage(format!("{} wants {}", self.arguments.command(), names.join(" and "))))
    }

    pub fn read(&self, path: &Path, kind: &Kind) -> Result<Vec<u8>, Failure> {
        input::read(self.progress, path, kind)
    }

    /// Refuses an output that is one of the files read: these, or those that options name.
    pub fn keep_apart(&self, inputs: &[&Path]) -> Done {
        let a = self.arguments;
        let options = [&a.list, &a.words_file, &a.store, &a.index, &a.recipes, &a.names];
        let all = || inputs.iter().copied().chain(options.into_iter().flatten().map(PathBuf::as_path));
        let output: Vec<&Path> = a.output.as_deref().into_iter().collect();
        let Some(tally) = a.tally.as_deref() else { return identity::keep_apart(&output, all()) };
        // A tally is read and written: no other input, and no other output.
        if let Some(output) = output.iter().find(|output| identity::is_one(output, tally)) {
            return Err(Failure::Usage(format!(
                "{} is the tally {}: name another output",
                text::path(output),
                text::path(tally)
            )));
        }
        identity::keep_apart(&output, all().chain([tally]))?;
        identity::keep_apart(&[tally], all())
    }

    /// The keyword list that the options say, or none.
    pub fn given_keywords(&self) -> Result<Option<Vec<u8>>, Failure> {
        let a = self.arguments;
        let of = |words: &[&[u8]], what: String| vault::keyword_list(a.fold, words).map(Some).map_err(refused(what));
        if let Some(path) = &a.words_file {
            let list = self.read(path, &input::KEYWORDS)?;
            vault::check_keywords(&list).map_err(refused(text::path(path)))?;
            return Ok(Some(list));
        }
        if let Some(path) = &a.list {
            return of(&lines(&self.read(path, &input::LIST)?), text::path(path));
        }
        if !a.words.is_empty() {
            return of(&a.words.iter().map(|word| &word[..]).collect::<Vec<_>>(), "keywords".into());
        }
        Ok(None)
    }

    fn keywords(&self) -> Result<Vec<u8>, Failure> {
        self.given_keywords()?.ok_or(Failure::Usage("give keywords: --word TEXT, --list FILE or --words FILE".into()))
    }

    fn format(&self) -> Result<Format, Failure> {
        let name = self.arguments.format.as_deref().unwrap_or("human");
        Format::of(name).ok_or(Failure::Usage(format!("--format is human, tsv, jsonl, plain or raw, not {name}")))
    }

    /// Recipes and their files' names, which must be as many; of recipes with a wrong count the library tells.
    fn recipes(&self, path: &Path) -> Result<Recipes, Failure> {
        let bytes = self.read(path, &input::RECIPES)?;
        let files = input::file_count(&bytes).filter(|files| *files <= input::MOST_FILES);
        let names = match (&self.arguments.names, files) {
            (Some(path), Some(files)) => names::parse(path, &self.read(path, &input::NAMES)?, files)?,
            _ => Vec::new(),
        };
        Ok(Recipes { path: path.to_path_buf(), bytes, names })
    }

    /// An index of a store that was read, and the scan's moves.
    fn scanned(&self, list: &[u8], store: &[u8], path: &Path) -> Result<vault::Scan, Failure> {
        let count = vault::keywords_of(list).len();
        let s = if count == 1 { "" } else { "s" };
        let step = format!("scanning {} for {count} keyword{s}", size(store.len() as u64));
        let scanned = self.progress.step(&step, store.len() as u64, || vault::scan(list, store));
        scanned.map_err(unmade("the index", scan_refused(path)))
    }

    /// The bill that the options ask for, of these keywords.
    fn bill(&self, list: &[u8], whose: &str) -> Result<Option<Bill<'_>>, Failure> {
        let a = self.arguments;
        let bill = || Bill::new(self.progress, &a.clients, a.tally.as_deref(), list, whose);
        (!a.clients.is_empty()).then(bill).transpose()
    }

    /// Joins and writes the list, with the bill behind it, or only counts.
    fn joined(&self, index: &[u8], index_name: &str, recipes: Recipes, format: Format, mut bill: Option<Bill>) -> Done {
        let output = self.arguments.output.as_deref();
        let (bytes, told) = (&recipes.bytes, recipes_refused(index_name, &recipes.path));
        let step = format!("joining {} of index with {} of recipes", size(index.len() as u64), size(bytes.len() as u64));
        if self.arguments.count {
            let count = self.progress.step(&step, 0, || vault::count(index, bytes)).map_err(told)?;
            return output::write(output, |out| writeln!(out, "{count}"));
        }
        let joined = self.progress.step(&step, 0, || match &mut bill {
            Some(bill) => vault::join_bytes(index, bytes, &bill.key, &mut bill.tally),
            None => vault::unbilled::join_bytes(index, bytes),
        });
        let list = joined.map_err(unmade("the list", told))?;
        let labels = recipes.labels(index);
        let fill = |out: &mut dyn Write| {
            rows::write(out, format, &list, &labels)?;
            bill.as_ref().map_or(Ok(()), |bill| bill.write(out, format))
        };
        let stored = bill.as_ref().map_or(Ok(None), |bill| bill.stored(self.progress))?;
        let step = format!("writing {} occurrences", list.len() / vault::ROW);
        self.progress.step(&step, 0, || match &stored {
            Some((path, text)) => output::write_with(output, fill, (path, text)),
            None => output::write(output, fill),
        })
    }

    fn search(&self) -> Done {
        let [store_path, recipes_path] = self.plain(["STORE", "RECIPES"])?;
        let format = self.format()?;
        self.keep_apart(&[store_path, recipes_path])?;
        let list = self.keywords()?;
        let bill = self.bill(&list, "the list")?;
        let recipes = self.recipes(recipes_path)?;
        let store = self.read(store_path, &input::STORE)?;
        let index = self.scanned(&list, &store, store_path)?.index;
        drop(store);
        self.joined(&index, "the index", recipes, format, bill)
    }

    fn scan(&self) -> Done {
        let [path] = self.plain(["STORE"])?;
        let output = self.arguments.output.as_ref().ok_or(Failure::Usage("scan wants -o INDEX".into()))?;
        self.keep_apart(&[path])?;
        let list = self.keywords()?;
        let store = self.read(path, &input::STORE)?;
        let vault::Scan { index, moves } = self.scanned(&list, &store, path)?;
        let s = if moves == 1 { "" } else { "s" };
        self.written(output, &index, &store, &format!("{moves} move{s}"))
    }

    /// Writes what a command made of a store, and reports it with what else there is to tell; on standard error where it goes to standard output.
    fn written(&self, output: &Path, bytes: &[u8], store: &[u8], told: &str) -> Done {
        let length = bytes.len() as u64;
        let step = format!("writing {}", size(length));
        self.progress.step(&step, length, || output::write(Some(output), |out| out.write_all(bytes)))?;
        let report = format!("{}: {} for a store of {}, {told}", text::path(output), size(length), size(store.len() as u64));
        if identity::is_standard_output(output) {
            text::say(report);
            return Ok(());
        }
        output::standard(|out| writeln!(out, "{report}"))
    }

    fn join(&self) -> Done {
        let [index_path, recipes_path] = self.plain(["INDEX", "RECIPES"])?;
        let format = self.format()?;
        self.keep_apart(&[index_path, recipes_path])?;
        let recipes = self.recipes(recipes_path)?;
        let index = self.read(index_path, &input::INDEX)?;
        let name = text::path(index_path);
        let bill = match self.arguments.clients.is_empty() {
            true => None,
            false => {
                vault::check_index(&index).map_err(refused(&name))?;
                self.bill(vault::keywords_in_index(&index), &name)?
            }
        };
        self.joined(&index, &name, recipes, format, bill)
    }

    fn query(&self) -> Done {
        let [index_path, recipes_path] = self.plain(["INDEX", "RECIPES"])?;
        let format = self.format()?;
        let a = self.arguments;
        if a.order.is_none() && a.then.is_empty() {
            return Err(Failure::Usage("give the order: --order NUMBERS, or --then TEXT for each keyword".into()));
        }
        self.keep_apart(&[index_path, recipes_path])?;
        let recipes = self.recipes(recipes_path)?;
        let index = self.read(index_path, &input::INDEX)?;
        let query = match &a.order {
            Some(numbers) => numbers.clone(),
            None => numbers_of(&a.then, &index, index_path)?,
        };
        let (bytes, told) = (&recipes.bytes, recipes_refused(&text::path(index_path), &recipes.path));
        let step = format!("querying {} of index with {} of recipes", size(index.len() as u64), size(bytes.len() as u64));
        if a.count {
            let count = self.progress.step(&step, 0, || vault::query_count(&index, bytes, &query)).map_err(told)?;
            return output::write(a.output.as_deref(), |out| writeln!(out, "{count}"));
        }
        let lines = self.progress.step(&step, 0, || vault::query_bytes(&index, bytes, &query));
        let lines = lines.map_err(unmade("the lines", told))?;
        let labels = recipes.labels(&index);
        let answer = Answer { query: &query, bytes: &lines };
        output::write(a.output.as_deref(), |out| lines::write(out, format, &answer, &labels))
    }

    fn compact(&self) -> Done {
        let [store_path, recipes_path] = self.plain(["STORE", "RECIPES"])?;
        let output = self.arguments.output.as_ref().ok_or(Failure::Usage("compact wants -o STORE".into()))?;
        self.keep_apart(&[store_path, recipes_path])?;
        let recipes = self.read(recipes_path, &input::RECIPES)?;
        let store = self.read(store_path, &input::STORE)?;
        let step = format!("compacting {} for {} of recipes", size(store.len() as u64), size(recipes.len() as u64));
        let compacted = self.progress.step(&step, 0, || vault::compact(&store, &recipes));
        let told = recipes_refused(&text::path(store_path), recipes_path);
        let compacted = compacted.map_err(unmade("the new store", told))?;
        drop(recipes);
        let (kept, all) = (inspect::chunk_count(&compacted), inspect::chunk_count(&store));
        self.written(output, &compacted, &store, &format!("{kept} of {all} chunks"))
    }

    fn make_vault(&self) -> Done {
        let a = self.arguments;
        let folder = a.output.as_ref().ok_or(Failure::Usage("make-vault wants -o FOLDER".into()))?;
        let paths: Vec<&Path> = a.plain[1..].iter().map(Path::new).collect();
        if paths.is_empty() {
            return Err(Failure::Usage("make-vault wants files or folders".into()));
        }
        let cut = make_vault::cut_of(a.cut.as_deref(), a.size)?;
        let lists: Vec<&Path> = [&a.list, &a.words_file].into_iter().flatten().map(PathBuf::as_path).collect();
        let given = a.words_file.is_some() || a.list.is_some() || !a.words.is_empty();
        let files = make_vault::outputs(folder, given);
        identity::keep_apart(&files.iter().map(PathBuf::as_path).collect::<Vec<_>>(), lists.into_iter())?;
        let list = self.given_keywords()?;
        make_vault::make(self.progress, &paths, folder, cut, list)
    }
}

#[cfg(test)]
mod tests {
    use super::lines;

    #[test]
    fn keywords_of_a_text() {
        assert_eq!(lines(b"\xEF\xBB\xBFone\r\n\ntwo \n\r\n"), [&b"one"[..], b"two "]);
        assert_eq!(lines(b"a\n\xEF\xBB\xBFb"), [&b"a"[..], b"\xEF\xBB\xBFb"]);
        assert!(lines(b"\xEF\xBB\xBF").is_empty());
    }
}
