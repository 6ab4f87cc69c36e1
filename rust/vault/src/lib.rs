//! Search over deduplicated backups: safe Rust over the proved library `libvault_c.a`.
//!
//! * A **store** holds each distinct chunk once. **Recipes** say which chunks make up each file. Unused bytes of a store before, between
//!   and behind its chunks, its **holes**, bear on no answer: on two good stores that differ only there every call answers and writes
//!   the same.
//! * [`scan`] scans each chunk for up to 16 **keywords** at once, writes a **match index** and counts its **moves**.
//! * [`join`] takes the index and recipes, and no chunk, and lists every [`Occurrence`] in the restored files: by file,
//!   then offset, then keyword, each exactly once, also those that go over two chunks or more.
//!   It takes a **key** too, which says which of up to four clients each keyword is of, and adds the occurrences of each client to a [`Tally`] that
//!   is lent. Callers that bill nobody have the same calls without both in [`unbilled`].
//! * [`query`] takes the index, recipes and several keyword numbers, and gives a [`Line`] for each file that has these keywords in that order.
//! * [`compact`] writes the store anew, without holes and with the chunks alone that recipes name: a search of these recipes lists the same.
//!
//! Bytes compare by the keyword list's **fold flag**. With 0 they compare as they are. With 1, capitals compare as small letters: 41 to
//! 5A (ASCII) and C0 to DE except D7 (Latin-1, ISO/IEC 8859-1) as the byte 20 (hexadecimal) higher, all others, DF, F7 and FF among
//! them, as themselves. This goes by bytes: the UTF-8 forms of two such letters (C3 89 and C3 A9, say) differ in a byte that doesn't
//! fold. An index that an earlier version, which folded 41 to 5A only, wrote with flag 1 has to be scanned anew: no call can tell or
//! refuses it, and its join may lack occurrences.
//!
//! A chunk has 1 to 1,048,576 bytes. A scan writes an index of the newest form, with the mark `DM3`; those with the marks `DM1` and `DM2`, which
//! earlier versions wrote, are read too ([`forms`]). They alone are refused with 17: where a chunk inside a file is shorter than the longest
//! keyword less one byte, they can't tell a keyword that crosses it whole.
//!
//! Every function takes every input: what isn't a good file is refused with an [`Error`], and a refused call changes no
//! buffer and no tally. What is proved is the library behind; this crate checks nothing again and only names things. Functions that make
//! their own buffer give a [`Failure`]: a refusal, or memory that can't be had.
//!
//! The library keeps its tables on the stack, up to 1.3 MB of it, and a thread that Rust starts has 2 MB: call from the
//! main thread or through [`on_large_stack`].
//!
//! ```no_run
//! let keywords = vault::keyword_list(false, &[b"invoice", b"paid"]).unwrap();
//! let (store, recipes) = (std::fs::read("store.bin").unwrap(), std::fs::read("recipes.bin").unwrap());
//! let scan = vault::scan(&keywords, &store).unwrap();
//! println!("{} moves", scan.moves);
//! // Of two clients, invoice is the first one's and paid the second one's.
//! let (key, mut tally) = (vault::key(&[0, 1]), vault::Tally::default());
//! for found in vault::join(&scan.index, &recipes, &key, &mut tally).unwrap() {
//!     println!("file {} offset {} keyword {}", found.file, found.offset, found.keyword);
//! }
//! println!("{} for the first, {} for the second", tally.counts[0], tally.counts[1]);
//! ```

mod clients;
mod error;
mod ffi;
pub mod forms;
#[cfg(feature = "mock")]
mod mock;
pub mod raw;
pub mod unbilled;

pub use clients::{key, Tally, CLIENTS, KEY, ONE_CLIENT};
pub use error::{Error, Failure};
use forms::{Form, NEWEST};

/// A stack that is large enough for every call, in bytes.
pub const STACK: usize = 64 << 20;

/// Bytes that an occurrence takes in a list: file (4), offset (4), keyword (1).
pub const ROW: usize = 9;

/// The longest index that a scan writes.
pub const LONGEST_INDEX: u64 = 4_294_967_295;

/// Whether the calls reach the unproved stand-in (feature `mock`) and not the proved library.
pub const IS_MOCK: bool = cfg!(feature = "mock");

/// Where a keyword occurs: the file's number in the recipes, the offset in the restored file, the keyword's number.
#[derive(Clone, Copy, Debug, PartialEq, Eq, PartialOrd, Ord, Hash)]
pub struct Occurrence {
    pub file: u32,
    pub offset: u32,
    pub keyword: u8,
}

/// A file that a query is about, and the offset of each keyword of the query in the restored file, in the query's order.
#[derive(Clone, Debug, PartialEq, Eq, PartialOrd, Ord, Hash)]
pub struct Line {
    pub file: u32,
    pub offsets: Vec<u32>,
}

/// Who refused in a search.
#[derive(Clone, Copy, Debug, PartialEq, Eq)]
pub enum SearchError {
    /// The scan refused. No buffer was changed, nor the tally.
    Scan(Error),
    /// The scan wrote an index of that length, and the join refused. The list's buffer and the tally were not changed.
    Join { index_length: usize, error: Error },
}

impl SearchError {
    pub fn error(&self) -> Error {
        match self {
            SearchError::Scan(error) | SearchError::Join { error, .. } => *error,
        }
    }
}

impl std::fmt::Display for SearchError {
    fn fmt(&self, f: &mut std::fmt::Formatter) -> std::fmt::Result {
        match self {
            SearchError::Scan(error) => write!(f, "scan: {error}"),
            SearchError::Join { error, .. } => write!(f, "join: {error}"),
        }
    }
}

impl std::error::Error for SearchError {}

/// A scan's index, and its moves.
///
/// The moves are those in the trie of all keywords, whose nodes are all beginnings of the keywords, compared under the fold
/// flag, with the empty one as root; a node's failure link leads to its longest proper ending that is a node. For each byte
/// of a chunk each link followed is a move, and so is the step to a child or the stay at the root behind them. Each chunk
/// starts at the root. The moves are summed over all chunks, and are at most twice the chunks' bytes. Not counted are the
/// short backward look for suffixes and a walk made only to measure.
#[derive(Clone, Debug, PartialEq, Eq)]
pub struct Scan {
    pub index: Vec<u8>,
    pub moves: u64,
}

/// What a scan wrote into a lent buffer: the index's length, and the moves as [`Scan`] has them.
#[derive(Clone, Copy, Debug, PartialEq, Eq)]
pub struct Written {
    pub length: usize,
    pub moves: u64,
}

/// What a search wrote.
#[derive(Clone, Copy, Debug, PartialEq, Eq)]
pub struct Searched {
    pub index_length: usize,
    pub count: usize,
}

fn done(code: u8) -> Result<(), Error> {
    match code {
        0 => Ok(()),
        code => Err(Error::new(code)),
    }
}

/// A call's number.
fn valued(call: impl FnOnce(&mut u64) -> u8) -> Result<u64, Error> {
    let mut value = 0;
    done(call(&mut value)).map(|()| value)
}

/// A buffer of so many bytes.
fn buffer(bytes: u64) -> Result<Vec<u8>, Failure> {
    let none = Failure::Memory { bytes };
    let length = usize::try_from(bytes).map_err(|_| none)?;
    let mut buffer = Vec::new();
    buffer.try_reserve_exact(length).map_err(|_| none)?;
    buffer.resize(length, 0);
    Ok(buffer)
}

/// The bytes of a keyword list with this fold flag, checked: refusals 2 to 4. With the flag, two keywords that differ only in case (of
/// ASCII or of Latin-1's accented letters) are refused with 4.
pub fn keyword_list(fold: bool, keywords: &[&[u8]]) -> Result<Vec<u8>, Error> {
    let byte = |n: usize| u8::try_from(n).unwrap_or(u8::MAX);
    let mut list = vec![byte(keywords.len()), fold as u8];
    for keyword in keywords {
        list.push(byte(keyword.len()));
        list.extend_from_slice(keyword);
    }
    check_keywords(&list).map(|()| list)
}

/// The keywords of a list that [`check_keywords`] accepts; of other lists, what can be read.
pub fn keywords_of(list: &[u8]) -> Vec<&[u8]> {
    let mut keywords = Vec::new();
    let mut rest = list.get(2..).unwrap_or(&[]);
    for _ in 0..list.first().copied().unwrap_or(0) {
        let Some((&n, behind)) = rest.split_first() else { break };
        let (keyword, next) = behind.split_at(behind.len().min(usize::from(n)));
        keywords.push(keyword);
        rest = next;
    }
    keywords
}

/// The keyword list of an index that [`check_index`] accepts, with what follows it.
pub fn keywords_in_index(index: &[u8]) -> &[u8] {
    index.get(8..).unwrap_or(&[])
}

/// Refusals 1 to 4.
pub fn check_keywords(list: &[u8]) -> Result<(), Error> {
    done(raw::check_keywords(list))
}

/// Refusals 5 to 8 and 20. The chunks lie in the directory's order, apart from it and from each other (7); none ends beyond
/// [`forms::GREATEST_END`] (20). What lies between and behind them is a hole. The store may have any length from its last chunk's end on, without
/// chunks from 8 bytes on.
pub fn check_store(store: &[u8]) -> Result<(), Error> {
    done(raw::check_store(store))
}

/// Refusals 10, 1 to 4, 11 to 13.
pub fn check_index(index: &[u8]) -> Result<(), Error> {
    done(raw::check_index(index))
}

/// The length of the index that a scan writes. Refusals 1 to 8 and 20.
pub fn scan_size(list: &[u8], store: &[u8]) -> Result<u64, Error> {
    valued(|length| raw::scan_size(list, store, length))
}

/// A length that no index of a scan of these passes, from lengths and counts alone: 8 and the list's length, 32 for each chunk, and for
/// each keyword 17 for each chunk and 3 for each byte of the store, holes too.
///
/// Where it is at most [`LONGEST_INDEX`] and a buffer has it, [`scan_into`] walks each chunk to write only; else once to measure
/// and, where a keyword occurs, to write. Writing walks a chunk of at most 65,536 bytes once and a longer one twice. The answer is
/// the same. What is behind the index is not touched, so the unused part of a large new buffer costs no memory.
pub fn scan_bound(list: &[u8], store: &[u8]) -> u64 {
    let keywords = list.first().map_or(0, |count| u64::from(*count));
    let chunks = store.get(4..8).map_or(0, |b| u64::from(u32::from_le_bytes([b[0], b[1], b[2], b[3]])));
    bound(list.len() as u64, keywords, chunks, store.len() as u64)
}

/// The same of a list's length, the numbers of keywords and of chunks, and a store's length; the largest number where it would be more.
fn bound(list: u64, keywords: u64, chunks: u64, store: u64) -> u64 {
    // The head, the first offset, the exact count, a set; an offset for each byte.
    let width = NEWEST.width as u64;
    let of_keyword = (((Form::HEAD + Form::SET_LENGTH) as u64 + 2 * width) * chunks).saturating_add(width.saturating_mul(store));
    (8 + list + 32 * chunks).saturating_add(keywords.saturating_mul(of_keyword))
}

/// Writes the index to the buffer's front and gives its length and the moves; what follows stays as it was. Refusals 1 to 9 and 20.
pub fn scan_into(list: &[u8], store: &[u8], out: &mut [u8]) -> Result<Written, Error> {
    let (mut length, mut moves) = (0, 0);
    done(raw::scan(list, store, out, (&mut length, &mut moves))).map(|()| Written { length: length as usize, moves })
}

/// The index and the moves. Refusals 1 to 8 and 20, and 9 where the index would be longer than [`LONGEST_INDEX`].
///
/// Most indexes are far shorter than the store, so a sixteenth of the store's length is tried first (of the greatest end of a chunk, where
/// the store is longer), and only where that doesn't do is the length asked for.
pub fn scan(list: &[u8], store: &[u8]) -> Result<Scan, Failure> {
    let mut index = buffer(forms::GREATEST_END.min(store.len() as u64) / 16 + (1 << 20))?;
    let written = match scan_into(list, store, &mut index) {
        Err(Error { code: 9, .. }) => {
            drop(index);
            let length = scan_size(list, store)?;
            if length > LONGEST_INDEX {
                return Err(Error::new(9).into());
            }
            index = buffer(length)?;
            scan_into(list, store, &mut index)?
        }
        answer => answer?,
    };
    index.truncate(written.length);
    Ok(Scan { index, moves: written.moves })
}

/// The number of occurrences. Refusals of the index check, 14 to 16, and of an index without sets ([`Form::sets`]) 17.
pub fn count(index: &[u8], recipes: &[u8]) -> Result<u64, Error> {
    valued(|count| raw::count(index, recipes, count))
}

/// Writes the list to the buffer's front, [`ROW`] bytes an occurrence, adds each client's occurrences to the tally, and gives the count; what
/// follows in the buffer stays as it was. Refusals of the index check, 14 to 18 (17 as [`count`]), then 22 (the key is not [`KEY`] bytes, or has a
/// client above 3 for one of the index's keywords, whether or not it occurs) and then 23 (a client's count would pass 64 bits). A refusal adds nothing.
pub fn join_into(index: &[u8], recipes: &[u8], key: &[u8], tally: &mut Tally, out: &mut [u8]) -> Result<usize, Error> {
    valued(|count| raw::join(index, recipes, key, out, count, &mut tally.counts)).map(|count| count as usize)
}

/// The list's bytes. Refusals as [`join_into`]'s, but for 18.
///
/// A list of some megabytes is tried first; only a longer one is counted and then made. The tally is added to once.
pub fn join_bytes(index: &[u8], recipes: &[u8], key: &[u8], tally: &mut Tally) -> Result<Vec<u8>, Failure> {
    let mut bytes = buffer(4 << 20)?;
    let written = match join_into(index, recipes, key, tally, &mut bytes) {
        Err(Error { code: 18, .. }) => {
            drop(bytes);
            bytes = buffer(count(index, recipes)?.saturating_mul(ROW as u64))?;
            join_into(index, recipes, key, tally, &mut bytes)?
        }
        answer => answer?,
    };
    bytes.truncate(ROW * written);
    Ok(bytes)
}

/// Every occurrence, and each client's added to the tally. Refusals as [`join_into`]'s, but for 18. Where there is no memory for the list, nothing
/// is added.
pub fn join(index: &[u8], recipes: &[u8], key: &[u8], tally: &mut Tally) -> Result<Vec<Occurrence>, Failure> {
    let mut added = *tally;
    let bytes = join_bytes(index, recipes, key, &mut added)?;
    let found = occurrences(&bytes);
    let mut list = Vec::new();
    let none = Failure::Memory { bytes: (found.len() * size_of::<Occurrence>()) as u64 };
    list.try_reserve_exact(found.len()).map_err(|_| none)?;
    list.extend(found);
    *tally = added;
    Ok(list)
}

/// The occurrences of a list's bytes.
pub fn occurrences(list: &[u8]) -> impl ExactSizeIterator<Item = Occurrence> + '_ {
    list.chunks_exact(ROW).map(|row| Occurrence {
        file: u32::from_le_bytes([row[0], row[1], row[2], row[3]]),
        offset: u32::from_le_bytes([row[4], row[5], row[6], row[7]]),
        keyword: row[8],
    })
}

/// The number of lines of a query. Refusals of the index check, 14 to 17 (17 as [`count`]), and then 21: the query is not 2 to 8 numbers, each below
/// the index's keyword count.
pub fn query_count(index: &[u8], recipes: &[u8], query: &[u8]) -> Result<u64, Error> {
    valued(|lines| raw::query_count(index, recipes, query, lines))
}

/// Bytes that a line of this query takes: file (4), and an offset (4) for each number.
pub fn line_size(query: &[u8]) -> usize {
    4 + 4 * query.len()
}

/// Writes the lines to the buffer's front, [`line_size`] bytes each, and gives their number; what follows stays as it was. Refusals as [`query_count`]'s,
/// and then 18 where all lines together exceed the buffer. No lines fit one of 0 bytes.
pub fn query_into(index: &[u8], recipes: &[u8], query: &[u8], out: &mut [u8]) -> Result<usize, Error> {
    valued(|lines| raw::query(index, recipes, query, out, lines)).map(|lines| lines as usize)
}

/// The lines' bytes. Refusals as [`query_count`]'s, which is asked first, so that the buffer is as long as they are.
pub fn query_bytes(index: &[u8], recipes: &[u8], query: &[u8]) -> Result<Vec<u8>, Failure> {
    let mut bytes = buffer(query_count(index, recipes, query)?.saturating_mul(line_size(query) as u64))?;
    let written = query_into(index, recipes, query, &mut bytes)?;
    bytes.truncate(line_size(query) * written);
    Ok(bytes)
}

/// A line for each file that has occurrences of the query's keywords in that order, each starting at or after the end of the one before, by rising
/// number. Its offsets are of the choice whose first occurrence starts earliest, then the second, and so on. Keyword numbers may repeat. Refusals as
/// [`query_count`]'s.
pub fn query(index: &[u8], recipes: &[u8], query: &[u8]) -> Result<Vec<Line>, Failure> {
    Ok(lines(query, &query_bytes(index, recipes, query)?).collect())
}

/// The lines of the bytes that this query has written.
pub fn lines<'a>(query: &[u8], bytes: &'a [u8]) -> impl ExactSizeIterator<Item = Line> + 'a {
    bytes.chunks_exact(line_size(query)).map(|line| {
        let mut fields = line.chunks_exact(4).map(|field| u32::from_le_bytes([field[0], field[1], field[2], field[3]]));
        Line { file: fields.next().unwrap_or(0), offsets: fields.collect() }
    })
}

/// A fingerprint's chunk, a part of the store and of no hole. Refusals of the store check, 19, 15.
pub fn find_chunk<'a>(store: &'a [u8], fingerprint: &[u8]) -> Result<&'a [u8], Error> {
    part(store, raw::chunk(store, fingerprint))
}

/// A fingerprint's body, a part of the index; it may be empty. Refusals of the index check, 19, 15.
pub fn find_body<'a>(index: &'a [u8], fingerprint: &[u8]) -> Result<&'a [u8], Error> {
    part(index, raw::body(index, fingerprint))
}

fn part(whole: &[u8], (code, start, length): (u8, u64, u64)) -> Result<&[u8], Error> {
    done(code).map(|()| &whole[start as usize..(start + length) as usize])
}

/// The length of the store that a compaction writes. Refusals of the store check, 14, 15.
pub fn compact_size(store: &[u8], recipes: &[u8]) -> Result<u64, Error> {
    valued(|length| raw::compact_size(store, recipes, length))
}

/// Writes the compacted store, as [`compact`] has it, to the buffer's front and gives its length; what follows stays as it was. Refusals of the
/// store check, 14, 15, and then 9 where the buffer is shorter. One as long as the store itself is always enough.
pub fn compact_into(store: &[u8], recipes: &[u8], out: &mut [u8]) -> Result<usize, Error> {
    valued(|length| raw::compact(store, recipes, out, length)).map(|length| length as usize)
}

/// A store without holes that has exactly the chunks that some recipe names, in their old order. Refusals of the store check, 14, and 15 for a
/// fingerprint that isn't in the store. Offsets in files are not looked at, so recipes that a join refuses with 16 or 17 are compacted for.
///
/// A search of these recipes gives on both stores the same list or the same refusal, and compacting the new store for them gives it again. No
/// accepted store with the bytes that these recipes name is shorter. Chunks that they do not name are gone: give all recipes of the store as one.
pub fn compact(store: &[u8], recipes: &[u8]) -> Result<Vec<u8>, Failure> {
    let mut compacted = buffer(compact_size(store, recipes)?)?;
    let length = compact_into(store, recipes, &mut compacted)?;
    compacted.truncate(length);
    Ok(compacted)
}

/// A scan into one buffer, the index's, and a join of what it wrote into another, the list's, with a key and a tally as [`join_into`] has them.
pub fn search_into(
    list: &[u8],
    store: &[u8],
    recipes: &[u8],
    key: &[u8],
    tally: &mut Tally,
    (index, out): (&mut [u8], &mut [u8]),
) -> Result<Searched, SearchError> {
    // No index is empty, so a length of 0 is one that the scan didn't tell.
    let (mut length, mut count) = (0, 0);
    let code = raw::search(list, store, recipes, key, (index, out), (&mut length, &mut count), &mut tally.counts);
    let index_length = length as usize;
    match code {
        0 => Ok(Searched { index_length, count: count as usize }),
        code if length == 0 => Err(SearchError::Scan(Error::new(code))),
        code => Err(SearchError::Join { index_length, error: Error::new(code) }),
    }
}

/// Every occurrence in the restored files, by a scan and a join of its index, and each client's added to the tally. Refusals 1 to 9 and 20 are the
/// scan's, 14 to 16, 22 and 23 the join's.
pub fn search(list: &[u8], store: &[u8], recipes: &[u8], key: &[u8], tally: &mut Tally) -> Result<Vec<Occurrence>, Failure> {
    join(&scan(list, store)?.index, recipes, key, tally)
}

/// Runs `work` on a thread whose stack is large enough for every call, and waits for it. The error is of a thread that can't
/// be started.
pub fn on_large_stack<T: Send>(work: impl FnOnce() -> T + Send) -> std::io::Result<T> {
    std::thread::scope(|scope| {
        let thread = std::thread::Builder::new().stack_size(STACK).spawn_scoped(scope, work)?;
        match thread.join() {
            Ok(result) => Ok(result),
            Err(panic) => std::panic::resume_unwind(panic),
        }
    })
}

#[cfg(test)]
mod tests {
    use super::*;

    /// A store of these entries (the byte of a fingerprint, offset, length) and bytes behind them.
    fn entries(entries: &[(u8, usize, usize)], behind: &[u8]) -> Vec<u8> {
        let mut store = [&b"DV1\n"[..], &(entries.len() as u32).to_le_bytes()].concat();
        for (key, offset, length) in entries {
            store.extend_from_slice(&[*key; 20]);
            [offset, length].iter().for_each(|field| store.extend_from_slice(&(**field as u32).to_le_bytes()));
        }
        store.extend_from_slice(behind);
        store
    }

    /// The recipes of these files, by the bytes of fingerprints.
    pub(crate) fn recipes_of(files: &[&[u8]]) -> Vec<u8> {
        let mut recipes = (files.len() as u32).to_le_bytes().to_vec();
        for file in files {
            recipes.extend_from_slice(&(file.len() as u32).to_le_bytes());
            file.iter().for_each(|key| recipes.extend_from_slice(&[*key; 20]));
        }
        recipes
    }

    /// The small vault of document 01: keywords, store, recipes.
    pub(crate) fn small() -> (Vec<u8>, Vec<u8>, Vec<u8>) {
        let store = entries(&[(1, 92, 3), (2, 95, 4), (3, 99, 1)], b"XABABAXA");
        (keyword_list(false, &[b"ABA", b"AA"]).unwrap(), store, recipes_of(&[&[1, 2], &[3, 3], &[]]))
    }

    pub(crate) fn with_stack(test: impl FnOnce() + Send) {
        on_large_stack(test).unwrap();
    }

    #[test]
    fn the_small_vault() {
        with_stack(|| {
            let (list, store, recipes) = small();
            let Scan { index, moves } = scan(&list, &store).unwrap();
            assert_eq!((index.len(), moves, &index[..4]), (138, 10, &[0x44, 0x4D, 0x33, 0x0A][..]));
            assert_eq!(index[113..], [0, 1, 2, 0, 0, 0, 0, 0, 0, 1, 0, 1, 1, 0, 0, 0, 1, 0, 2, 0, 0, 3, 1, 0, 3]);
            let found = |file, offset, keyword| Occurrence { file, offset, keyword };
            let want = vec![found(0, 1, 0), found(0, 3, 0), found(1, 0, 1)];
            assert_eq!(unbilled::join(&index, &recipes), Ok(want.clone()));
            assert_eq!(unbilled::search(&list, &store, &recipes), Ok(want));
            assert_eq!(count(&index, &recipes), Ok(3));
            let (mut a, mut b) = ([7; 138], [7; 28]);
            assert_eq!(
                unbilled::search_into(&list, &store, &recipes, &mut a, &mut b),
                Ok(Searched { index_length: 138, count: 3 })
            );
            assert_eq!((&a[..], b[27]), (&index[..], 7));
        });
    }

    /// A store of these chunks.
    fn store_of(chunks: &[&[u8]]) -> Vec<u8> {
        let mut end = 8 + 28 * chunks.len();
        let entry = |(k, chunk): (usize, &&[u8])| {
            end += chunk.len();
            (k as u8, end - chunk.len(), chunk.len())
        };
        entries(&chunks.iter().enumerate().map(entry).collect::<Vec<_>>(), &chunks.concat())
    }

    /// The small vault's chunks with the rest of a keyword, its front and another one in each hole.
    #[test]
    fn holes_bear_on_nothing() {
        with_stack(|| {
            let (list, store, recipes) = small();
            let plain = scan(&list, &store).unwrap();
            for holes in [["AB", "A", "ABA", "A"], ["", "", "", "AAAA"], ["\0", "", "AB", ""], ["", "..", "", ""]] {
                let starts = [92 + holes[0].len(), 95 + holes[..2].concat().len(), 99 + holes[..3].concat().len()];
                let behind = [holes[0], "XAB", holes[1], "ABAX", holes[2], "A", holes[3]].concat();
                let holed = entries(&[(1, starts[0], 3), (2, starts[1], 4), (3, starts[2], 1)], behind.as_bytes());
                assert_eq!(check_store(&holed), Ok(()), "{holes:?}");
                assert_eq!(scan(&list, &holed), Ok(plain.clone()), "{holes:?}");
                assert_eq!(unbilled::search(&list, &holed, &recipes), unbilled::search(&list, &store, &recipes));
                let chunk = find_chunk(&holed, &[2; 20]).unwrap();
                assert_eq!((chunk, chunk.as_ptr()), (&b"ABAX"[..], holed[starts[1]..].as_ptr()));
            }
        });
    }

    /// The small vault's chunks with holes around: what some file names, in the directory's order.
    #[test]
    fn compacted() {
        with_stack(|| {
            let (list, plain, all) = small();
            let holed = entries(&[(1, 94, 3), (2, 97, 4), (3, 104, 1)], b"..XABABAX...A..");
            assert_eq!(compact(&holed, &all), Ok(plain.clone()));
            assert_eq!(compact(&plain, &all), Ok(plain));
            for (files, want) in [
                (&[&[3, 1, 3][..], &[], &[1]][..], entries(&[(1, 64, 3), (3, 67, 1)], b"XABA")),
                (&[&[2]], entries(&[(2, 36, 4)], b"ABAX")),
                (&[&[], &[]], entries(&[], b"")),
                (&[], entries(&[], b"")),
            ] {
                let recipes = recipes_of(files);
                assert_eq!(compact(&holed, &recipes), Ok(want.clone()), "{files:?}");
                assert_eq!(compact(&want, &recipes), Ok(want.clone()));
                assert_eq!(compact_size(&holed, &recipes), Ok(want.len() as u64));
                assert_eq!(unbilled::search(&list, &want, &recipes), unbilled::search(&list, &holed, &recipes));
            }
        });
    }

    /// The tests in their order, each with every later one failing too; what a refusal and the bytes behind keep.
    #[test]
    fn what_a_compaction_refuses() {
        with_stack(|| {
            let (_, store, all) = small();
            let absent = recipes_of(&[&[1], &[2, 9]]);
            for (store, recipes, room, want) in [
                (&store[1..], &all[1..], 0, 5),
                (&store[..91], &all[1..], 0, 6),
                (&store[..99], &all[1..], 0, 7),
                (&entries(&[(1, 64, 1), (1, 65, 1)], b"AA"), &all[1..], 0, 8),
                (&entries(&[(1, 0xFFFF_FFFF, 1)], b"A"), &all[1..], 0, 20),
                (&store, &absent[1..], 0, 14),
                (&store, &absent, 0, 15),
                (&store, &all, 99, 9),
                (&store, &all, 100, 0),
                (&store, &all, 107, 0),
            ] {
                let (mut length, mut out) = (1 << 40, vec![7; room]);
                assert_eq!(raw::compact(store, recipes, &mut out, &mut length), want);
                let (told, written) = if want == 0 { (100, 100) } else { (1 << 40, 0) };
                assert_eq!((length, &out[..written], &out[written..]), (told, &store[..written], &vec![7; room - written][..]));
                let (mut length, without_a_buffer) = (1 << 40, if want == 9 { 0 } else { want });
                assert_eq!(raw::compact_size(store, recipes, &mut length), without_a_buffer);
                assert_eq!(length, if without_a_buffer == 0 { 100 } else { 1 << 40 });
            }
        });
    }

    /// Three chunks of one byte, with a keyword of three: a join of an older index refuses with 17, a compaction doesn't ask.
    #[test]
    fn recipes_that_a_join_refuses_are_compacted() {
        with_stack(|| {
            let (list, store, _) = small();
            let short = recipes_of(&[&[3, 3, 3]]);
            let compacted = compact(&store, &short).unwrap();
            assert_eq!(compacted, entries(&[(3, 36, 1)], b"A"));
            for store in [&store, &compacted] {
                let found = |offset| Occurrence { file: 0, offset, keyword: 1 };
                assert_eq!(unbilled::search(&list, store, &short), Ok(vec![found(0), found(1)]));
            }
        });
    }

    /// An index of these chunks for these keywords.
    fn index_for(keywords: &[&[u8]], chunks: &[&[u8]]) -> Vec<u8> {
        scan(&keyword_list(false, keywords).unwrap(), &store_of(chunks)).unwrap().index
    }

    fn line(file: u32, offsets: &[u32]) -> Line {
        Line { file, offsets: offsets.to_vec() }
    }

    /// Adjacent occurrences do, overlapping ones don't, and one that crosses chunks counts like any other.
    #[test]
    fn keywords_in_order() {
        with_stack(|| {
            let index = index_for(&[b"ab", b"ba", b"b"], &[b"ab", b"a", b"ba", b"-"]);
            // aba, abba, ab-ba, baab, abab-a, -
            let recipes = recipes_of(&[&[0, 1], &[0, 2], &[0, 3, 2], &[2, 0], &[0, 0, 3, 1], &[3]]);
            for (asked, want) in [
                (&[0, 1][..], vec![line(1, &[0, 2]), line(2, &[0, 3])]),
                (&[1, 0], vec![line(3, &[0, 2])]),
                (&[0, 0], vec![line(4, &[0, 2])]),
                (&[0, 2], vec![line(1, &[0, 2]), line(2, &[0, 3]), line(4, &[0, 3])]),
                (&[2, 2], vec![line(1, &[1, 2]), line(2, &[1, 3]), line(3, &[0, 3]), line(4, &[1, 3])]),
                (&[1, 2], vec![line(3, &[0, 3]), line(4, &[1, 3])]),
                (&[2, 2, 2], vec![]),
                (&[0, 0, 0], vec![]),
            ] {
                assert_eq!(query(&index, &recipes, asked), Ok(want.clone()), "{asked:?}");
                assert_eq!(query_count(&index, &recipes, asked), Ok(want.len() as u64));
                let mut out = vec![7; want.len() * line_size(asked) + 3];
                assert_eq!(query_into(&index, &recipes, asked, &mut out), Ok(want.len()));
                let (front, behind) = out.split_at(out.len() - 3);
                assert_eq!((lines(asked, front).collect::<Vec<_>>(), behind), (want, &[7; 3][..]));
            }
        });
    }

    /// Byte by byte: offsets that take two bytes, least significant first, in two lines.
    #[test]
    fn the_bytes_of_lines() {
        with_stack(|| {
            let index = index_for(&[b"A", b"B"], &[&[b'.'; 0x123], b"AB", b"."]);
            let recipes = recipes_of(&[&[2], &[0, 1], &[1]]);
            let want = [1, 0, 0, 0, 0x23, 1, 0, 0, 0x24, 1, 0, 0, 2, 0, 0, 0, 0, 0, 0, 0, 1, 0, 0, 0];
            assert_eq!(query_bytes(&index, &recipes, &[0, 1]), Ok(want.to_vec()));
        });
    }

    /// A keyword that overlaps itself: twice it needs twice its length, over any number of chunks.
    #[test]
    fn a_repeated_keyword() {
        with_stack(|| {
            let index = index_for(&[b"AAAA"], &[b"A", b"AAAAA", b"AAAAAAAA"]);
            let (seven, eight) = (vec![0; 7], vec![0; 8]);
            let recipes = recipes_of(&[&seven, &eight, &[1], &[1, 0, 0], &[2], &[0, 2, 1]]);
            let want = vec![line(1, &[0, 4]), line(4, &[0, 4]), line(5, &[0, 4])];
            assert_eq!(query(&index, &recipes, &[0, 0]), Ok(want));
            assert_eq!(query(&index, &recipes, &[0, 0, 0]), Ok(vec![line(5, &[0, 4, 8])]));
        });
    }

    /// The tests in their order, each with every later one failing too; what a refusal and the bytes behind keep.
    #[test]
    fn what_a_query_refuses() {
        with_stack(|| {
            let (list, store, all) = small();
            let index = scan(&list, &store).unwrap().index;
            let older = |mark: &[u8]| [mark, &index[4..]].concat();
            let (absent, short) = (recipes_of(&[&[1], &[9]]), recipes_of(&[&[1, 3, 2]]));
            let files = recipes_of(&[&[1, 2], &[3, 3], &[2, 2, 2]]);
            for (index, recipes, asked, room, want) in [
                (&index[..7], &all[1..], &[0][..], 0, 10),
                (&index[..8], &all[1..], &[0], 0, 1),
                (&index[..137], &all[1..], &[0], 0, 11),
                (&older(b"DM1\n"), &all[1..], &[0], 0, 13),
                (&index, &all[1..], &[0], 0, 14),
                (&index, &absent, &[0], 0, 15),
                (&older(b"DM2\n"), &short, &[0], 0, 17),
                (&index, &short, &[0], 0, 21),
                (&index, &files, &[], 0, 21),
                (&index, &files, &[0], 0, 21),
                (&index, &files, &[0; 9], 0, 21),
                (&index, &files, &[0, 2], 0, 21),
                (&index, &files, &[255, 0], 0, 21),
                (&index, &files, &[0, 0], 0, 18),
                (&index, &files, &[0, 0], 11, 18),
                (&index, &files, &[0, 0], 12, 0),
                (&index, &files, &[0, 0], 20, 0),
                (&index, &files, &[1, 0], 0, 0),
                (&index, &files, &[0; 8], 0, 0),
            ] {
                let (mut lines, mut out) = (1 << 40, vec![7; room]);
                assert_eq!(raw::query(index, recipes, asked, &mut out, &mut lines), want, "{asked:?} {room}");
                let count = if asked == [0, 0] { 1 } else { 0 };
                let (told, written) = if want == 0 { (count, 12 * count as usize) } else { (1 << 40, 0) };
                assert_eq!((lines, &out[written..]), (told, &vec![7; room - written][..]));
                assert_eq!(out[..written], [2, 0, 0, 0, 0, 0, 0, 0, 4, 0, 0, 0][..written]);
                let (mut lines, without_a_buffer) = (1 << 40, if want == 18 { 0 } else { want });
                assert_eq!(raw::query_count(index, recipes, asked, &mut lines), without_a_buffer);
                assert_eq!(lines, if without_a_buffer == 0 { count } else { 1 << 40 });
            }
            assert_eq!(query(&index, &files, &[0; 9]), Err(Error::new(21).into()));
            assert!(Error::new(21).to_string().starts_with("refused 21: the query is not 2 to 8 keyword numbers"));
        });
    }

    /// The borders of holes: the directory, the chunk before, the store's end, 4,294,967,295.
    #[test]
    fn what_is_no_hole() {
        with_stack(|| {
            let code = |list: &[(u8, usize, usize)]| raw::check_store(&entries(list, &[b'A'; 20]));
            for (offset, length, want) in [(36, 20, 0), (35, 1, 7), (55, 1, 0), (55, 2, 7), (36, 0, 7), (0, 8, 7)] {
                assert_eq!(code(&[(1, offset, length)]), want, "{offset} {length}");
            }
            for (offset, want) in [(69, 7), (70, 0), (71, 0), (83, 0), (84, 7), (0xFFFF_FFFE, 7), (0xFFFF_FFFF, 20)] {
                assert_eq!(code(&[(1, 65, 5), (2, offset, 1)]), want, "{offset}");
            }
            assert_eq!(code(&[(1, 64, 1_000), (2, 0xFFFF_FFFF, 1)]), 20);
            for more in [0, 1, 300] {
                assert_eq!(check_store(&entries(&[], &vec![7; more])), Ok(()));
            }
        });
    }

    /// The moves of a scan for these keywords, the same in every buffer that the index fits.
    fn moves(fold: bool, keywords: &[&[u8]], chunks: &[&[u8]]) -> u64 {
        let (list, store) = (keyword_list(fold, keywords).unwrap(), store_of(chunks));
        let Scan { index, moves } = scan(&list, &store).unwrap();
        let bound = scan_bound(&list, &store) as usize;
        assert!(index.len() <= bound && moves <= 2 * chunks.concat().len() as u64);
        for length in [index.len(), index.len() + 1, bound.max(index.len() + 1) - 1, bound, bound + 1] {
            let mut out = vec![7; length];
            assert_eq!(scan_into(&list, &store, &mut out), Ok(Written { length: index.len(), moves }));
            assert!(out[..index.len()] == index && out[index.len()..].iter().all(|b| *b == 7));
        }
        moves
    }

    #[test]
    fn moves_by_the_paper() {
        with_stack(|| {
            for (keywords, chunk, want) in [
                (&[&b"DEDUP"[..], b"UP"][..], &b"DEDE"[..], 5),
                (&[b"DEDUP", b"UP"], b"DEDUP", 5),
                (&[b"DEDUP", b"UP"], b"DEDUPX", 8),
                (&[b"AAAA"], b"AAAAAA", 8),
                (&[b"AAAA"], b"AAAX", 7),
                (&[b"A"], b"AAAA", 7),
                (&[b"A"], b"BBBB", 4),
            ] {
                assert_eq!(moves(false, keywords, &[chunk]), want, "{}", chunk.escape_ascii());
            }
        });
    }

    #[test]
    fn moves_of_chunks_and_folds() {
        with_stack(|| {
            assert_eq!(moves(false, &[b"A"], &[]), 0);
            // Each chunk starts at the root; the order is all one.
            assert_eq!(moves(false, &[b"AAAA"], &[b"AAAAAA", b"AAAX", b"A"]), 8 + 7 + 1);
            assert_eq!(moves(false, &[b"AAAA"], &[b"A", b"AAAX", b"AAAAAA"]), 8 + 7 + 1);
            assert_eq!(moves(true, &[b"dedup", b"Up"], &[b"DeDe", b"dEDUPx"]), 5 + 8);
            assert_eq!(moves(false, &[b"dedup", b"Up"], &[b"DeDe", b"dEDUPx"]), 4 + 8);
            assert_eq!(moves(true, &[b"\xC9\xC9"], &[b"\xC9\xE9", b"\xE9\xD7"]), 2 + 3);
            assert_eq!(moves(false, &[b"\xC9\xC9"], &[b"\xC9\xE9", b"\xE9\xD7"]), 3 + 2);
            assert_eq!(moves(true, &[b"\xDF\xDF"], &[b"\xDF\xFF"]), 3);
            // Two a byte but for the first 31, in chunks that are walked in one part and in four.
            let word = [&[b'a'; 31][..], b"b"].concat();
            for length in [33, 255, 256, 257, 1023, 1024, 1025, 65_535, 65_536, 65_537, 131_073, 1_048_576] {
                assert_eq!(moves(false, &[&word], &[&vec![b'a'; length]]), 2 * length as u64 - 31);
            }
        });
    }

    /// The byte that another compares as: document 01 with request 104, by a table.
    fn compares_as(fold: bool, b: u8) -> u8 {
        let capitals = [0x41..=0x5A, 0xC0..=0xD6, 0xD8..=0xDE];
        b + if fold && capitals.iter().any(|stretch| stretch.contains(&b)) { 0x20 } else { 0 }
    }

    #[test]
    fn refusal_4_of_every_two_bytes() {
        with_stack(|| {
            for (fold, a, b) in [false, true].iter().flat_map(|f| (0..=255).flat_map(move |a| (0..=255).map(move |b| (*f, a, b))))
            {
                let want = if compares_as(fold, a) == compares_as(fold, b) { 4 } else { 0 };
                assert_eq!(raw::check_keywords(&[2, fold as u8, 1, a, 1, b]), want, "{fold} {a:02X} {b:02X}");
            }
        });
    }

    #[test]
    fn occurrences_of_every_byte() {
        with_stack(|| {
            let all: Vec<u8> = (0..=255).collect();
            let (store, recipes) = (store_of(&[&all]), [&[1, 0, 0, 0, 1, 0, 0, 0][..], &[0; 20]].concat());
            for (fold, first) in [false, true].iter().flat_map(|fold| (0..16).map(move |k| (*fold, 16 * k))) {
                let words: Vec<[u8; 1]> = (first..=first + 15).map(|b| [b]).collect();
                let list = keyword_list(fold, &words.iter().map(|word| &word[..]).collect::<Vec<_>>()).unwrap();
                let met = |b: u8| words.iter().position(|word| compares_as(fold, word[0]) == compares_as(fold, b));
                let want: Vec<(u32, u8)> = all.iter().filter_map(|b| Some((u32::from(*b), met(*b)? as u8))).collect();
                let found = unbilled::search(&list, &store, &recipes).unwrap();
                assert_eq!(found.iter().map(|o| (o.offset, o.keyword)).collect::<Vec<_>>(), want);
            }
        });
    }

    /// A capital, a small letter, a capital: over two chunks with flag 1 it stands at 0 and 1.
    #[test]
    fn accented_capitals_across_chunks() {
        with_stack(|| {
            let store = store_of(&[b"\xC9\xE9", b"\xE9\xC9"]);
            let recipes = [&[1, 0, 0, 0, 2, 0, 0, 0][..], &[0; 20], &[1; 20]].concat();
            for (fold, want) in [(true, vec![0, 1]), (false, vec![])] {
                let list = keyword_list(fold, &[b"\xC9\xE9\xC9"]).unwrap();
                let found = unbilled::search(&list, &store, &recipes).unwrap();
                assert_eq!(found.iter().map(|o| o.offset).collect::<Vec<_>>(), want);
            }
            // An index of an earlier version, whose keywords are alike now: refused for that and not for its age.
            let older = [&b"DM1\n\0\0\0\0"[..], &[2, 1, 1, 0xC9, 1, 0xE9]].concat();
            assert_eq!(check_index(&older).unwrap_err().code, 4);
            assert_eq!(keyword_list(true, &[b"\xC9", b"\xE9"]).unwrap_err().code, 4);
            assert!(keyword_list(true, &[b"\xD7", b"\xF7", b"\xDF", b"\xFF"]).is_ok());
        });
    }

    #[test]
    fn a_refused_scan_keeps_both_numbers() {
        with_stack(|| {
            let (list, store, _) = small();
            let bad = [&list[..], &[0]].concat();
            for (list, store, length, code) in
                [(&list, &store[..], 137, 9), (&list, &store[1..], 5000, 5), (&bad, &store[..], 5000, 1)]
            {
                let (mut told, mut moves) = (1 << 40, 1 << 41);
                assert_eq!(raw::scan(list, store, &mut vec![7; length], (&mut told, &mut moves)), code);
                assert_eq!((told, moves), (1 << 40, 1 << 41));
            }
        });
    }

    #[test]
    fn the_bound_of_a_scan() {
        let (list, store, _) = small();
        assert_eq!(scan_bound(&list, &store), 8 + 9 + 32 * 3 + 2 * (17 * 3 + 3 * 100));
        assert_eq!(scan_bound(&[], &[]), 8);
        // Stores longer than 32 bits, and lengths that no memory has.
        assert_eq!(bound(9, 2, 3, 1 << 33), 8 + 9 + 32 * 3 + 2 * (17 * 3 + 3 * (1 << 33)));
        for store in [u64::MAX, u64::MAX / 3, u64::MAX / 16] {
            assert_eq!(bound(530, 16, 65_000, store), u64::MAX);
        }
    }

    /// Document 01's index, which an earlier version wrote.
    fn old_index() -> Vec<u8> {
        let mut old = [&b"DM1\n\x03\0\0\0"[..], &small().0].concat();
        for (key, size, offset, length) in [(1, 3, 113, 7), (2, 4, 120, 10), (3, 1, 130, 6)] {
            old.extend([&[key; 20][..], &[size, 0, 0, 0, offset, 0, 0, 0, length, 0, 0, 0]].concat());
        }
        old.extend([0, 1, 2, 0, 0, 0, 0, 0, 1, 0, 1, 1, 0, 0, 1, 0, 2, 0, 0, 3, 1, 0, 3]);
        old
    }

    /// An index of one chunk, fingerprint 0, under that mark.
    fn index_of_one(mark: &[u8], list: &[u8], size: u8, body: &[u8]) -> Vec<u8> {
        let start = (8 + list.len() + 32) as u8;
        let entry = [&[0; 20][..], &[size, 0, 0, 0, start, 0, 0, 0, body.len() as u8, 0, 0, 0]].concat();
        [mark, &[1, 0, 0, 0], list, &entry, body].concat()
    }

    /// Document 01's refused case, XAB, A, ABAX: 17 under the older marks, and a list under the newest.
    #[test]
    fn a_short_chunk_inside_a_file() {
        with_stack(|| {
            let (list, store, _) = small();
            let three = recipes_of(&[&[1, 3, 2]]);
            let new = scan(&list, &store).unwrap().index;
            let second = [b"DM2\n", &new[4..]].concat();
            for old in [old_index(), second] {
                assert_eq!(
                    (count(&old, &three), unbilled::join_into(&old, &three, &mut [])),
                    (Err(Error::new(17)), Err(Error::new(17)))
                );
                assert!(!Form::of(&old).sets);
            }
            let found = |offset, keyword| Occurrence { file: 0, offset, keyword };
            let want = vec![found(1, 0), found(3, 1), found(4, 0)];
            assert_eq!((unbilled::join(&new, &three), unbilled::search(&list, &store, &three)), (Ok(want.clone()), Ok(want)));
        });
    }

    /// Sets of inner starts: as written, as listed, and under the marks that have none.
    #[test]
    fn sets_of_inner_starts() {
        with_stack(|| {
            let list = keyword_list(false, &[b"AAAA"]).unwrap();
            let index = scan(&list, &store_of(&[b"A"])).unwrap().index;
            let body = [0, 0, 3, 0, 4, 6, 0, 0, 0];
            assert_eq!((find_body(&index, &[0; 20]), &index), (Ok(&body[..]), &index_of_one(b"DM3\n", &list, 1, &body)));
            let found: Vec<u32> = unbilled::join(&index, &recipes_of(&[&[0; 6]])).unwrap().iter().map(|o| o.offset).collect();
            assert_eq!(found, [0, 1, 2]);
            for (mark, size, set, want) in [
                (b"DM3\n", 1, 6, 0),
                (b"DM3\n", 1, 0, 13),
                (b"DM3\n", 1, 1, 13),
                (b"DM3\n", 1, 8, 13),
                (b"DM3\n", 2, 2, 0),
                (b"DM3\n", 2, 4, 13),
                (b"DM3\n", 3, 2, 13),
                (b"DM2\n", 1, 6, 13),
                (b"DM1\n", 1, 6, 13),
                (b"DM4\n", 1, 6, 10),
            ] {
                assert_eq!(
                    raw::check_index(&index_of_one(mark, &list, size, &[0, 0, 3, 0, 4, set, 0, 0, 0])),
                    want,
                    "{size} {set}"
                );
            }
        });
    }

    /// A keyword of 32 bytes over chunks of one byte, and one that begins and ends in longer ones.
    #[test]
    fn the_longest_keyword_over_small_chunks() {
        with_stack(|| {
            let word = b"abracadabraabracadabraabracadabr";
            let letters: Vec<&[u8]> = vec![b"a", b"b", b"r", b"c", b"d", b"xabracad", b"adabrx", b"abra"];
            let of = |b: &u8| letters.iter().position(|letter| *letter == [*b]).unwrap() as u8;
            let alone: Vec<u8> = word.iter().map(of).collect();
            let longer = [&[5][..], &alone[7..27], &[6]].concat();
            let list = keyword_list(false, &[word, b"abra"]).unwrap();
            let recipes = recipes_of(&[&alone, &alone[1..], &[&alone[..], &alone[..]].concat(), &longer]);
            let found = unbilled::search(&list, &store_of(&letters), &recipes).unwrap();
            let whole: Vec<(u32, u32)> = found.iter().filter(|o| o.keyword == 0).map(|o| (o.file, o.offset)).collect();
            assert_eq!(whole, [(0, 0), (2, 0), (2, 32), (3, 1)]);
            assert_eq!(
                found.iter().filter(|o| o.file == 0 && o.keyword == 1).map(|o| o.offset).collect::<Vec<_>>(),
                [0, 7, 11, 18, 22]
            );
        });
    }

    /// Document 01's bodies under the old mark, and request 105's under the new ones: the same list.
    #[test]
    fn an_index_under_the_old_mark() {
        with_stack(|| {
            let (list, store, recipes) = small();
            let mut old = old_index();
            assert_eq!((old.len(), check_index(&old)), (136, Ok(())));
            let new = scan(&list, &store).unwrap().index;
            assert_eq!(unbilled::join(&old, &recipes), unbilled::join(&new, &recipes));
            assert_eq!(count(&old, &recipes), Ok(3));
            assert_eq!(find_body(&old, &[2; 20]), Ok(&old[120..130]));
            assert_eq!((Form::of(&old), Form::of(&new)), (forms::FORMS[0], NEWEST));
            // Each mark has its longest chunk.
            old[17 + 22] = 1;
            assert_eq!(check_index(&old).unwrap_err().code, 11);
        });
    }

    /// Every chunk length at which the library's windows of 65,536 bytes begin and end, and the longest: with the keyword at each border.
    #[test]
    fn chunks_of_several_windows() {
        with_stack(|| {
            let list = keyword_list(false, &[b"aab", b"a"]).unwrap();
            for length in [65_535, 65_536, 65_537, 131_071, 131_072, 131_073, 1_048_575, 1_048_576] {
                let mut chunk = vec![b'.'; length];
                let ends = (1..=length / 65_536).map(|k| 65_536 * k).filter(|end| end + 2 <= length).chain([3, length]);
                let mut ends: Vec<usize> = ends.flat_map(|end| [end, end + 1, end + 2]).filter(|end| *end <= length).collect();
                ends.sort();
                ends.iter().for_each(|end| chunk[end - 3..*end].copy_from_slice(b"aab"));
                let want: Vec<u32> = (0..length - 2).filter(|at| chunk[*at..].starts_with(b"aab")).map(|at| at as u32).collect();
                let recipes = [&[1, 0, 0, 0, 1, 0, 0, 0][..], &[0; 20]].concat();
                let found = unbilled::search(&list, &store_of(&[&chunk]), &recipes).unwrap();
                let of = |word: u8| found.iter().filter(move |o| o.keyword == word).map(|o| o.offset);
                assert_eq!(of(0).collect::<Vec<_>>(), want, "{length}");
                assert_eq!(of(1).count(), chunk.iter().filter(|b| **b == b'a').count());
            }
            assert_eq!(check_store(&store_of(&[&vec![0; 1_048_577]])).unwrap_err().code, 7);
        });
    }

    /// As many occurrences as a chunk can have: the exact count takes 3 bytes.
    #[test]
    fn an_occurrence_at_each_byte_of_the_longest_chunk() {
        with_stack(|| {
            for length in [65_535, 65_536, 1_048_576] {
                let (list, store) = (keyword_list(false, &[b"A"]).unwrap(), store_of(&[&vec![b'A'; length]]));
                let index = scan(&list, &store).unwrap().index;
                let body = find_body(&index, &[0; 20]).unwrap();
                assert_eq!(body[..5], [0, 3, 0, 0, 255]);
                assert_eq!((body.len(), NEWEST.field_at(body, 8)), (11 + 3 * length, length));
                let recipes = [&[1, 0, 0, 0, 2, 0, 0, 0][..], &[0; 40]].concat();
                assert_eq!(count(&index, &recipes), Ok(2 * length as u64));
                assert_eq!(scan_into(&list, &store, &mut vec![0; index.len() - 1]).unwrap_err().code, 9);
            }
        });
    }

    /// 4,096 chunks of the longest length end beyond 32 bits.
    #[test]
    fn a_store_that_ends_beyond_32_bits() {
        with_stack(|| {
            let directory = |last: u32| {
                let mut store = [&b"DV1\n"[..], &4_096u32.to_le_bytes()].concat();
                for k in 0..4_096u32 {
                    let offset = 114_696 + 1_048_576 * u64::from(k);
                    let size = if k < 4_095 { 1_048_576 } else { last };
                    store.extend([&k.to_le_bytes().repeat(5)[..], &(offset as u32).to_le_bytes(), &size.to_le_bytes()].concat());
                }
                store
            };
            let code = |last: u32| check_store(&directory(last)).unwrap_err().code;
            assert_eq!((code(1_048_576), code(933_880), code(933_879), code(1_048_577)), (20, 20, 7, 7));
            let (list, _, recipes) = small();
            assert_eq!(unbilled::search(&list, &directory(933_880), &recipes), Err(Error::new(20).into()));
            assert_eq!(find_chunk(&directory(933_880), &[1; 20]).unwrap_err().code, 20);
        });
    }

    #[test]
    fn lookups_are_parts_of_the_input() {
        with_stack(|| {
            let (list, store, _) = small();
            let index = scan(&list, &store).unwrap().index;
            let chunk = find_chunk(&store, &[2; 20]).unwrap();
            assert_eq!((chunk, chunk.as_ptr()), (&b"ABAX"[..], store[95..].as_ptr()));
            let body = find_body(&index, &[3; 20]).unwrap();
            assert_eq!((body, body.as_ptr()), (&index[132..], index[132..].as_ptr()));
            assert_eq!(find_chunk(&store, &[4; 20]).unwrap_err().code, 15);
            assert_eq!(find_body(&index, &[4; 3]).unwrap_err().code, 19);
        });
    }

    #[test]
    fn refusals() {
        with_stack(|| {
            let (list, store, recipes) = small();
            let index = scan(&list, &store).unwrap().index;
            assert_eq!(keyword_list(true, &[b"Ab", b"aB"]).unwrap_err().code, 4);
            assert_eq!(keyword_list(true, &[&[b'a'; 300]]).unwrap_err().code, 3);
            assert_eq!(check_store(&store[1..]).unwrap_err().code, 5);
            assert_eq!(check_index(&index[..137]).unwrap_err().code, 11);
            let mut short = [7; 137];
            assert_eq!(scan_into(&list, &store, &mut short).unwrap_err().code, 9);
            assert_eq!(short, [7; 137]);
            assert_eq!(count(&index, &recipes[1..]).unwrap_err().code, 14);
            let mut index_buffer = [7; 140];
            let refused = unbilled::search_into(&list, &store, &recipes, &mut index_buffer, &mut [0; 26]);
            assert_eq!(refused, Err(SearchError::Join { index_length: 138, error: Error::new(18) }));
            let said = "join: refused 18: the list of occurrences, or all lines of a query together, are longer than the buffer";
            assert_eq!(refused.unwrap_err().to_string(), said);
            let refused = unbilled::search_into(&list, &store[..8], &recipes, &mut index_buffer, &mut []);
            assert_eq!(refused, Err(SearchError::Scan(Error::new(6))));
        });
    }

    #[test]
    fn memory_that_cannot_be_had() {
        for bytes in [1 << 62, u64::MAX] {
            assert_eq!(buffer(bytes), Err(Failure::Memory { bytes }));
        }
        assert_eq!(buffer(3), Ok(vec![0; 3]));
    }

    /// Names and numbers of parameters, as the C header and `ffi.rs` declare them.
    fn declared(text: &str, start: &str) -> Vec<(String, usize)> {
        let text = text.replace('\n', " ");
        let mut found: Vec<(String, usize)> = text
            .split(start)
            .skip(1)
            .filter_map(|rest| rest.split_once('('))
            .map(|(name, rest)| {
                (name.to_string(), rest.split(')').next().unwrap_or("").trim_end_matches([' ', ',']).matches(',').count() + 1)
            })
            .collect();
        found.sort();
        found
    }

    #[test]
    fn the_declarations_are_the_headers() {
        let header = std::fs::read_to_string(concat!(env!("CARGO_MANIFEST_DIR"), "/../../include/vault.h")).unwrap();
        let header = header.replace("uint8_t vault_", "fn vault_").replace("uint64_t vault_", "fn vault_");
        let names = declared(&header, "fn vault_");
        assert_eq!(names.len(), 18);
        assert_eq!(names, declared(include_str!("ffi.rs"), "fn vault_"));
    }

    /// A number as people write it.
    fn thousands(number: usize) -> String {
        match number {
            0..=999 => number.to_string(),
            _ => format!("{},{:03}", thousands(number / 1000), number % 1000),
        }
    }

    #[test]
    fn the_limits_that_sentences_name() {
        for code in [6, 10] {
            assert!(Error::new(code).meaning.contains(&format!("above {}", thousands(forms::MOST_CHUNKS))));
        }
        assert!(Error::new(7).meaning.contains(&format!("not 1 to {} ", thousands(forms::LONGEST_CHUNK))));
        assert!(Error::new(20).meaning.contains(&format!("beyond {} bytes", thousands(forms::GREATEST_END as usize))));
        forms::FORMS.iter().for_each(|form| assert!(Error::new(10).meaning.contains(&form.name())));
    }

    #[test]
    fn every_refusal_has_its_sentence() {
        for code in 1..=23 {
            assert!(!Error::new(code).meaning.contains("don't name"));
        }
        assert!(Error::new(24).meaning.contains("don't name"));
    }
}
