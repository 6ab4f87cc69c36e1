//! The refusals of document 01, and of the requests of document 02.

use std::fmt;

/// A refusal: its number, and what it means. A call that refuses has changed no buffer.
#[derive(Clone, Copy, Debug, PartialEq, Eq)]
pub struct Error {
    pub code: u8,
    pub meaning: &'static str,
}

/// The refusals, by number from 1.
const MEANINGS: [&str; 23] = [
    "the keyword list is cut short, or has bytes left over",
    "the keyword list's count is not 1 to 16, or its fold flag is neither 0 nor 1",
    "a keyword's length is not 1 to 32",
    "two keywords compare alike",
    "not a store: fewer than 8 bytes, or another mark",
    "the store's chunk count is above 65,000, or its directory is cut short",
    "a store entry's length is not 1 to 1,048,576 or its offset before the end of the directory or of the chunk before, or the last chunk ends beyond the store",
    "a fingerprint is in the store twice",
    "the index or the new store is longer than the buffer, or the index than 4,294,967,295 bytes",
    "not an index: fewer than 8 bytes, a mark that is none of DM1, DM2 and DM3, or a chunk count above 65,000",
    "the index's directory is cut short, an entry has a wrong chunk length or offset, or the last body doesn't end where the file does",
    "a fingerprint is in the index twice",
    "a body of the index is not the written form of match records",
    "not recipes: under 4 bytes, more than 65,535 files, cut short, or with bytes left over",
    "a fingerprint is not there",
    "a file of the recipes has more than 4,294,967,295 bytes",
    "a chunk inside a file is shorter than the longest keyword less one byte, for which the index is of too old a mark (DM1 or DM2): scan the store anew",
    "the list of occurrences, or all lines of a query together, are longer than the buffer",
    "a fingerprint is not 20 bytes",
    "a store entry says that its chunk ends beyond 4,294,967,295 bytes, where no chunk of a store may end: part the backup into several stores",
    "the query is not 2 to 8 keyword numbers, or one of them is not below the index's keyword count",
    "the key is not 16 bytes, or names a client above 3 for a keyword",
    "a client's count would pass 18,446,744,073,709,551,615, the largest number of 64 bits: begin a new tally",
];

impl Error {
    /// The refusal of that number; numbers outside 1 to 23 are not the papers', and say so.
    pub fn new(code: u8) -> Error {
        let meaning = match code {
            1..=23 => MEANINGS[usize::from(code) - 1],
            _ => "a number that the papers don't name",
        };
        Error { code, meaning }
    }
}

impl fmt::Display for Error {
    fn fmt(&self, f: &mut fmt::Formatter) -> fmt::Result {
        write!(f, "refused {}: {}", self.code, self.meaning)
    }
}

impl std::error::Error for Error {}

/// Why a call that makes its own buffer has no result.
#[derive(Clone, Copy, Debug, PartialEq, Eq)]
pub enum Failure {
    Refused(Error),
    /// A buffer of so many bytes can't be had.
    Memory {
        bytes: u64,
    },
}

impl From<Error> for Failure {
    fn from(error: Error) -> Failure {
        Failure::Refused(error)
    }
}

impl fmt::Display for Failure {
    fn fmt(&self, f: &mut fmt::Formatter) -> fmt::Result {
        match self {
            Failure::Refused(error) => write!(f, "{error}"),
            Failure::Memory { bytes } => write!(f, "no memory for {bytes} bytes"),
        }
    }
}

impl std::error::Error for Failure {}
