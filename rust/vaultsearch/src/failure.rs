//! Why a command ends without its work done, or not all of it.

use crate::text;
use std::fmt;
use std::path::Path;

pub enum Failure {
    /// The command line is wrong.
    Usage(String),
    /// A file can't be read, used or written.
    File(String),
    /// Memory or a thread can't be had.
    Memory(String),
    /// The library refused: which input or step, and the refusal.
    Refused(String, vault::Error),
    /// A vault was written, but without some of the files.
    Incomplete(String),
}

impl Failure {
    pub fn file(path: &Path, why: impl fmt::Display) -> Failure {
        Failure::File(format!("{}: {why}", text::path(path)))
    }

    pub fn memory(what: &str, bytes: u64) -> Failure {
        Failure::Memory(format!("{what}: no memory for {bytes} bytes"))
    }

    /// A refusal ends with its own number; 64, 74 and 75 are those of sysexits.h. `help.txt` has the table.
    pub fn status(&self) -> u8 {
        match self {
            Failure::Usage(_) => 64,
            Failure::File(_) | Failure::Memory(_) => 74,
            Failure::Refused(_, error) => error.code,
            Failure::Incomplete(_) => 75,
        }
    }
}

impl fmt::Display for Failure {
    fn fmt(&self, f: &mut fmt::Formatter) -> fmt::Result {
        match self {
            Failure::Usage(why) => write!(f, "{why}\n(vaultsearch --help tells how to use it)"),
            Failure::File(why) | Failure::Memory(why) | Failure::Incomplete(why) => write!(f, "{why}"),
            Failure::Refused(what, error) => write!(f, "{what}: {error}"),
        }
    }
}
