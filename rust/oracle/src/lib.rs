//! A plain implementation of document 01 and of the requests of document 02, written from the papers and from nothing else.
//!
//! It is here to be compared with: nothing is clever, every test stands in the paper's order, every sum is
//! taken in 64 bits or more, and every function answers for all inputs. Each module is one section of the paper:
//!
//! * [`keywords`]: "Words" with request 104's accented capitals, and the word check;
//! * [`store`]: "Store" with request 106's holes, and the store check with request 105's number 20;
//! * [`records`]: "Notes on one chunk and one word" with request 108's sets, and their written form;
//! * [`moves`]: request 103, what a scan's walk of the trie counts;
//! * [`form`]: the written forms of an index, by their marks: document 01's and those of requests 105 and 108;
//! * [`index`]: "Notes file", with the notes check;
//! * [`recipes`]: "Recipes", with refusals 14 to 17;
//! * [`join`]: "Joining two notes", request 108's crossings over any number of chunks, and the join;
//! * [`clients`]: request 110, a key that says which client each word is of, and a tally of each client's finds;
//! * [`query`]: request 109, the files that have several words in order;
//! * [`compact`]: request 107, a store's chunks that some recipe names, without holes;
//! * [`direct`]: the restored files searched byte by byte, which knows no records at all;
//! * [`calls`]: the operations in the shape of the C interface (a code, a number, lent buffers).

pub mod calls;
pub mod clients;
pub mod compact;
pub mod direct;
pub mod form;
pub mod index;
pub mod join;
pub mod keywords;
pub mod moves;
pub mod query;
pub mod recipes;
pub mod records;
pub mod store;

/// The number of a refusal, 1 to 23.
pub type Code = u8;

/// A fingerprint: 20 opaque bytes.
pub type Fingerprint = [u8; 20];

/// The largest number of 4 bytes.
pub const U32: u64 = 4_294_967_295;

/// Chunks that a store or an index may have.
pub const MOST_CHUNKS: u64 = 65_000;

/// The 4 bytes at `at`, least significant first. The caller has tested that they are there.
pub(crate) fn number(bytes: &[u8], at: usize) -> u64 {
    let field = &bytes[at..at + 4];
    u64::from(u32::from_le_bytes([field[0], field[1], field[2], field[3]]))
}

/// The 20 bytes at `at`. The caller has tested that they are there.
pub(crate) fn fingerprint(bytes: &[u8], at: usize) -> Fingerprint {
    let mut key = [0; 20];
    key.copy_from_slice(&bytes[at..at + 20]);
    key
}

/// Whether some fingerprint is there twice.
pub(crate) fn twice<'a>(keys: impl Iterator<Item = &'a Fingerprint>) -> bool {
    let mut seen = std::collections::HashSet::new();
    for key in keys {
        if !seen.insert(key) {
            return true;
        }
    }
    false
}
