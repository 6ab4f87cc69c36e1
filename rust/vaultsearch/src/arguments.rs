//! The command line, taken apart. An option that the command doesn't use, or that is given twice, is refused.

use crate::bill::Client;
use crate::failure::Failure;
use crate::text;
use std::ffi::OsString;
use std::path::PathBuf;

#[derive(Default)]
pub struct Arguments {
    /// What isn't an option, in order; the command first.
    pub plain: Vec<OsString>,
    pub words: Vec<Vec<u8>>,
    pub list: Option<PathBuf>,
    pub words_file: Option<PathBuf>,
    pub fold: bool,
    pub store: Option<PathBuf>,
    pub index: Option<PathBuf>,
    pub recipes: Option<PathBuf>,
    pub names: Option<PathBuf>,
    /// A query by keyword numbers, or by keywords.
    pub order: Option<Vec<u8>>,
    pub then: Vec<Vec<u8>>,
    /// Who the keywords are for, and the file of the running counts.
    pub clients: Vec<Client>,
    pub tally: Option<PathBuf>,
    pub output: Option<PathBuf>,
    pub format: Option<String>,
    pub cut: Option<String>,
    pub size: Option<usize>,
    pub count: bool,
    pub entries: bool,
    pub quiet: bool,
    pub help: bool,
    /// The options given, by their first names.
    given: Vec<&'static str>,
}

/// The options that each command uses.
const USED: [(&str, &[&str]); 8] = [
    (
        "search",
        &["--word", "--list", "--words", "--fold", "--client", "--tally", "--format", "--names", "--count", "-o", "--quiet"],
    ),
    ("scan", &["--word", "--list", "--words", "--fold", "-o", "--quiet"]),
    ("join", &["--client", "--tally", "--format", "--names", "--count", "-o", "--quiet"]),
    ("query", &["--order", "--then", "--format", "--names", "--count", "-o", "--quiet"]),
    ("check", &["--store", "--index", "--recipes", "--word", "--list", "--words", "--fold", "--entries", "--quiet"]),
    ("lookup", &["--store", "--index", "-o", "--quiet"]),
    ("compact", &["-o", "--quiet"]),
    ("make-vault", &["--cut", "--size", "--word", "--list", "--words", "--fold", "-o", "--quiet"]),
];

/// The arguments of a known command, or with `help` set.
pub fn read(words: Vec<OsString>) -> Result<Arguments, Failure> {
    let mut arguments = Arguments::default();
    let mut words = words.into_iter();
    while let Some(word) = words.next() {
        match word.as_encoded_bytes() {
            b"--" => arguments.plain.extend(words.by_ref()),
            [b'-', _, ..] => arguments.option(&shown(&word), &mut words)?,
            _ => arguments.plain.push(word),
        }
    }
    arguments.help |= arguments.plain.first().is_some_and(|command| command == "help");
    if !arguments.help {
        arguments.test_use()?;
        arguments.test_pairs()?;
    }
    Ok(arguments)
}

fn shown(word: &OsString) -> String {
    text::line(word.as_encoded_bytes())
}

impl Arguments {
    pub fn command(&self) -> String {
        self.plain.first().map_or(String::new(), shown)
    }

    fn option(&mut self, option: &str, words: &mut impl Iterator<Item = OsString>) -> Result<(), Failure> {
        let name = first_name(option).ok_or_else(|| Failure::Usage(format!("no such option: {option}")))?;
        if self.given.contains(&name) && !["--word", "--then", "--client"].contains(&name) {
            return Err(Failure::Usage(format!("{option} is given twice")));
        }
        self.given.push(name);
        let mut value = || words.next().ok_or(Failure::Usage(format!("{option} wants a value behind it")));
        match name {
            "--word" => self.words.push(value()?.into_encoded_bytes()),
            "--list" => self.list = Some(value()?.into()),
            "--words" => self.words_file = Some(value()?.into()),
            "--store" => self.store = Some(value()?.into()),
            "--index" => self.index = Some(value()?.into()),
            "--recipes" => self.recipes = Some(value()?.into()),
            "--names" => self.names = Some(value()?.into()),
            "--order" => self.order = Some(numbers(option, &value()?)?),
            "--then" => self.then.push(value()?.into_encoded_bytes()),
            "--client" => {
                let value = value()?;
                let wrong = || Failure::Usage(format!("{option} wants NAME=TEXT or NAME, not {}", shown(&value)));
                self.clients.push(Client::of(value.as_encoded_bytes()).ok_or_else(wrong)?);
            }
            "--tally" => self.tally = Some(value()?.into()),
            "-o" => self.output = Some(value()?.into()),
            "--format" => self.format = Some(shown(&value()?)),
            "--cut" => self.cut = Some(shown(&value()?)),
            "--size" => self.size = Some(number(option, &value()?)?),
            "--fold" => self.fold = true,
            "--count" => self.count = true,
            "--entries" => self.entries = true,
            "--quiet" => self.quiet = true,
            _ => self.help = true,
        }
        Ok(())
    }

    /// Whether the command is one, and uses each option.
    fn test_use(&self) -> Result<(), Failure> {
        let command = self.command();
        let names = USED.map(|(name, _)| name).join(", ");
        let Some((_, used)) = USED.iter().find(|(name, _)| *name == command) else {
            let none = if command.is_empty() { "no command".into() } else { format!("no such command: {command}") };
            return Err(Failure::Usage(format!("{none} (one of {names})")));
        };
        match self.given.iter().find(|option| !used.contains(option)) {
            Some(option) => Err(Failure::Usage(format!("{command} does not use {option}"))),
            None => Ok(()),
        }
    }

    /// Whether no option takes away another's use.
    fn test_pairs(&self) -> Result<(), Failure> {
        let given = |option: &&str| self.given.contains(option);
        let wrong = |why: &str| Err(Failure::Usage(why.into()));
        if ["--word", "--list", "--words"].iter().filter(|option| given(option)).count() > 1 {
            return wrong("give keywords by one of --word, --list and --words");
        }
        if self.fold && self.words_file.is_some() {
            return wrong("a binary keyword list has its own fold flag: leave --fold out");
        }
        if self.fold && self.words.is_empty() && self.list.is_none() {
            return wrong("--fold is for keywords by --word or --list");
        }
        if self.count && (self.format.is_some() || self.names.is_some()) {
            return wrong("--count prints a number only: leave --format and --names out");
        }
        if self.names.is_some() && matches!(self.format.as_deref(), Some("plain" | "raw")) {
            return wrong("the formats plain and raw have no names: leave --names out");
        }
        if self.order.is_some() && !self.then.is_empty() {
            return wrong("give the order by one of --order and --then");
        }
        if self.tally.is_some() && self.clients.is_empty() {
            return wrong("--tally is for the clients' counts: give --client NAME=TEXT too");
        }
        if self.count && !self.clients.is_empty() {
            return wrong("--count makes no list, and so no bill: leave --client out");
        }
        if self.format.as_deref() == Some("raw") && !self.clients.is_empty() && self.tally.is_none() {
            return wrong("the format raw has no place for the clients' counts: give --tally FILE too");
        }
        if self.entries && self.store.is_none() && self.index.is_none() {
            return wrong("--entries lists the chunks of --store FILE or --index FILE");
        }
        Ok(())
    }
}

/// The name of an option that may have two.
fn first_name(option: &str) -> Option<&'static str> {
    match option {
        "--output" => Some("-o"),
        "--help" | "-h" => Some("--help"),
        _ => USED.iter().flat_map(|(_, used)| used.iter()).find(|name| **name == option).copied(),
    }
}

fn number(option: &str, value: &OsString) -> Result<usize, Failure> {
    let value = shown(value);
    value.parse().map_err(|_| Failure::Usage(format!("{option} wants a number, not {value}")))
}

/// Keyword numbers with commas between; none at all in an empty word. How many and which there may be, the library tells.
fn numbers(option: &str, value: &OsString) -> Result<Vec<u8>, Failure> {
    let value = shown(value);
    let wrong = |_| Failure::Usage(format!("{option} wants keyword numbers with commas between, as 0,3,1, not {value}"));
    let parts = if value.is_empty() { vec![] } else { value.split(',').collect() };
    parts.into_iter().map(str::parse).collect::<Result<_, _>>().map_err(wrong)
}
