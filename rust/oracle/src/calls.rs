//! The operations in the shape of the C interface: a code (0: done), and lent buffers and numbers. A refusal leaves these as
//! they were.

use crate::clients::Counts;
use crate::form::NEWEST;
use crate::index::Index;
use crate::join::Joined;
use crate::store::Chunk;
use crate::{clients, compact, index, join, keywords, moves, query, store, Code, U32};
use std::ops::Range;

/// A call's code; its length or count goes to the lent number where the call is done.
fn told(result: Result<u64, Code>, number: &mut u64) -> Code {
    match result {
        Ok(value) => {
            *number = value;
            0
        }
        Err(code) => code,
    }
}

fn code<T>(result: Result<T, Code>) -> Code {
    result.err().unwrap_or(0)
}

pub fn check_keywords(list: &[u8]) -> Code {
    code(keywords::read(list))
}

pub fn check_store(bytes: &[u8]) -> Code {
    code(store::read(bytes))
}

pub fn check_index(bytes: &[u8]) -> Code {
    code(index::read(bytes))
}

/// The index that a scan writes, whatever its length: refusals 1 to 8 and 20.
pub fn index_of(list: &[u8], store: &[u8]) -> Result<Vec<u8>, Code> {
    let keywords = keywords::read(list)?;
    let chunks = store::read(store)?;
    Ok(index::of_scan(&NEWEST, list, &keywords, store, &chunks))
}

pub fn scan_size(list: &[u8], store: &[u8], length: &mut u64) -> Code {
    let size = || {
        let keywords = keywords::read(list)?;
        let chunks = store::read(store)?;
        Ok(index::length_of_scan(&NEWEST, &keywords, store, &chunks))
    };
    told(size(), length)
}

/// The moves of a scan, whatever the length of its index: refusals 1 to 8 and 20.
pub fn moves_of(list: &[u8], store: &[u8]) -> Result<u64, Code> {
    let keywords = keywords::read(list)?;
    let chunks = store::read(store)?;
    Ok(moves::of_scan(&keywords, store, &chunks))
}

pub fn scan(list: &[u8], store: &[u8], out: &mut [u8], (length, moves): (&mut u64, &mut u64)) -> Code {
    let mut run = || {
        let bytes = index_of(list, store)?;
        if bytes.len() as u64 > U32 {
            return Err(9);
        }
        put(out, &bytes, 9)
    };
    let code = told(run(), length);
    if code == 0 {
        return told(moves_of(list, store), moves);
    }
    code
}

/// Writes bytes to the buffer's front; the code given, and nothing written, if they are more than it holds.
fn put(out: &mut [u8], bytes: &[u8], too_long: Code) -> Result<u64, Code> {
    if bytes.len() > out.len() {
        return Err(too_long);
    }
    out[..bytes.len()].copy_from_slice(bytes);
    Ok(bytes.len() as u64)
}

pub fn count(bytes: &[u8], recipes: &[u8], count: &mut u64) -> Code {
    let run = || {
        let index = index::read(bytes)?;
        Ok(Joined::new(&index, recipes)?.count())
    };
    told(run(), count)
}

/// The key and the tally are tested behind 18: 22, then 23. Only then is anything written or added.
pub fn join(bytes: &[u8], recipes: &[u8], key: &[u8], out: &mut [u8], count: &mut u64, tally: &mut Counts) -> Code {
    let mut run = || {
        let index = index::read(bytes)?;
        let joined = Joined::new(&index, recipes)?;
        let found = joined.count();
        if 9 * found > out.len() as u64 {
            return Err(18);
        }
        clients::test(key, &index.keywords)?;
        let list = joined.list();
        let sums = clients::sums(tally, &clients::counts(key, &list))?;
        put(out, &join::encode(&list), 18)?;
        *tally = sums;
        Ok(found)
    };
    told(run(), count)
}

/// The lines of a query, whatever their length: refusals of the index check, 14 to 17, 21.
fn lines_of(bytes: &[u8], recipes: &[u8], asked: &[u8]) -> Result<Vec<query::Line>, Code> {
    let index = index::read(bytes)?;
    let joined = Joined::new(&index, recipes)?;
    query::test(asked, &index.keywords)?;
    Ok(query::lines(&index.keywords, &joined.list(), asked))
}

pub fn query_count(bytes: &[u8], recipes: &[u8], asked: &[u8], lines: &mut u64) -> Code {
    told(lines_of(bytes, recipes, asked).map(|lines| lines.len() as u64), lines)
}

/// 18 is the last test: all lines together.
pub fn query(bytes: &[u8], recipes: &[u8], asked: &[u8], out: &mut [u8], lines: &mut u64) -> Code {
    let mut run = || {
        let lines = lines_of(bytes, recipes, asked)?;
        put(out, &query::encode(&lines), 18)?;
        Ok(lines.len() as u64)
    };
    told(run(), lines)
}

/// Where a fingerprint's chunk lies in the store.
pub fn chunk(bytes: &[u8], key: &[u8]) -> Result<Range<usize>, Code> {
    chunk_in(&store::read(bytes), key)
}

/// The same, of a store that was read.
pub fn chunk_in(chunks: &Result<Vec<Chunk>, Code>, key: &[u8]) -> Result<Range<usize>, Code> {
    let chunks = chunks.as_ref().map_err(|code| *code)?;
    if key.len() != 20 {
        return Err(19);
    }
    chunks.iter().find(|c| c.key == *key).map(|c| c.place.clone()).ok_or(15)
}

/// Where a fingerprint's body lies in the index.
pub fn body(bytes: &[u8], key: &[u8]) -> Result<Range<usize>, Code> {
    body_in(&index::read(bytes), key)
}

/// The same, of an index that was read.
pub fn body_in(index: &Result<Index, Code>, key: &[u8]) -> Result<Range<usize>, Code> {
    let index = index.as_ref().map_err(|code| *code)?;
    if key.len() != 20 {
        return Err(19);
    }
    index.entries.iter().find(|e| e.key == *key).map(|e| e.body.clone()).ok_or(15)
}

/// The length of the store that a compaction writes: refusals 5 to 8, 20, 14 and 15.
pub fn compact_size(bytes: &[u8], recipes: &[u8], length: &mut u64) -> Code {
    told(compact::of(bytes, recipes).map(|store| store.len() as u64), length)
}

/// The store without holes of the chunks that the recipes name. 9 is the last test.
pub fn compact(bytes: &[u8], recipes: &[u8], out: &mut [u8], length: &mut u64) -> Code {
    told(compact::of(bytes, recipes).and_then(|store| put(out, &store, 9)), length)
}

/// A scan and then a join of what it wrote. The index's length is told where the scan is done, whatever the join answers.
pub fn search(
    list: &[u8],
    store: &[u8],
    recipes: &[u8],
    key: &[u8],
    (index, out): (&mut [u8], &mut [u8]),
    (index_length, count): (&mut u64, &mut u64),
    tally: &mut Counts,
) -> Code {
    // A search doesn't report its scan's moves.
    let scanned = scan(list, store, index, (index_length, &mut 0));
    if scanned != 0 {
        return scanned;
    }
    join(&index[..*index_length as usize], recipes, key, out, count, tally)
}

#[cfg(test)]
mod tests {
    use super::*;
    use crate::form::{Form, FORM1, FORM2, KNOWN};
    use crate::keywords::list_of;
    use crate::{direct, recipes};

    fn small() -> (Vec<u8>, Vec<u8>, Vec<u8>) {
        let store = store::encode(&[([1; 20], &b"XAB"[..]), ([2; 20], b"ABAX"), ([3; 20], b"A")]);
        let recipes = recipes::encode(&[vec![[1; 20], [2; 20]], vec![[3; 20], [3; 20]], vec![]]);
        (list_of(false, &[b"ABA", b"AA"]), store, recipes)
    }

    /// The length of the small vault's index: two records have a field. 136 bytes in document 01's form, 138 in those of requests 105 and 108.
    const SMALL: usize = 132 + 2 * NEWEST.width;

    /// The key of one client: the tests of keys and tallies are in `clients.rs`.
    const KEY: [u8; 16] = [0; 16];

    /// What a number holds that no call has told.
    const UNTOLD: u64 = 0xA5A5;

    fn answer(call: impl FnOnce(&mut u64) -> Code) -> (Code, u64) {
        let mut number = UNTOLD;
        (call(&mut number), number)
    }

    #[test]
    fn the_small_vault() {
        let (list, store, recipes) = small();
        let (mut index, mut out, mut length, mut count) = (vec![0xEE; SMALL + 4], vec![0xEE; 30], 7, 8);
        let code = search(&list, &store, &recipes, &KEY, (&mut index, &mut out), (&mut length, &mut count), &mut [0; 4]);
        assert_eq!((code, length, count), (0, SMALL as u64, 3));
        assert_eq!(index[SMALL..], [0xEE; 4]);
        let row = |file: u8, offset: u8, word: u8| [file, 0, 0, 0, offset, 0, 0, 0, word];
        assert_eq!(out[..27], [row(0, 1, 0), row(0, 3, 0), row(1, 0, 1)].concat());
        assert_eq!(out[27..], [0xEE; 3]);
    }

    #[test]
    fn a_scan_tells_its_moves() {
        let (list, store, _) = small();
        for (room, want) in [(SMALL, (0, SMALL as u64, 10)), (SMALL - 1, (9, UNTOLD, UNTOLD)), (5_000, (0, SMALL as u64, 10))] {
            let (mut length, mut moves) = (UNTOLD, UNTOLD);
            let code = scan(&list, &store, &mut vec![0; room], (&mut length, &mut moves));
            assert_eq!((code, length, moves), want);
        }
        let empty = store::encode::<&[u8]>(&[]);
        assert_eq!(moves_of(&list, &empty), Ok(0));
        assert_eq!(moves_of(&list[1..], &empty), Err(2));
        assert_eq!(moves_of(&list, &empty[1..]), Err(5));
    }

    #[test]
    fn exact_buffers_fit_and_shorter_ones_change_nothing() {
        let (list, store, recipes) = small();
        let mut index = vec![0xEE; SMALL];
        let mut short = vec![0xEE; SMALL - 1];
        assert_eq!(answer(|length| scan(&list, &store, &mut short, (length, &mut 0))), (9, UNTOLD));
        assert_eq!(short, [0xEE; SMALL - 1]);
        assert_eq!(answer(|length| scan(&list, &store, &mut index, (length, &mut 0))), (0, SMALL as u64));
        let mut out = vec![0xEE; 26];
        assert_eq!(answer(|count| join(&index, &recipes, &KEY, &mut out, count, &mut [0; 4])), (18, UNTOLD));
        assert_eq!(out, [0xEE; 26]);
        assert_eq!(answer(|count| join(&index, &recipes, &KEY, &mut vec![0; 27], count, &mut [0; 4])), (0, 3));
        assert_eq!(answer(|count| join(&index, &[0, 0, 0, 0], &KEY, &mut [], count, &mut [0; 4])), (0, 0));
    }

    #[test]
    fn a_refused_search_tells_what_was_done() {
        let (list, store, recipes) = small();
        for (room, rows, want) in
            [(SMALL - 1, 27, (9, UNTOLD, UNTOLD)), (SMALL, 26, (18, SMALL as u64, UNTOLD)), (SMALL, 27, (0, SMALL as u64, 3))]
        {
            let (mut index, mut out, mut length, mut count) = (vec![0; room], vec![0; rows], UNTOLD, UNTOLD);
            let code = search(&list, &store, &recipes, &KEY, (&mut index, &mut out), (&mut length, &mut count), &mut [0; 4]);
            assert_eq!((code, length, count), want);
        }
    }

    /// What a scan writes in that form.
    fn scanned_in(form: &Form, list: &[u8], store: &[u8]) -> Vec<u8> {
        index::of_scan(form, list, &keywords::read(list).unwrap(), store, &store::read(store).unwrap())
    }

    /// Document 01's refused case: 17 under the older marks; request 108's lists it.
    #[test]
    fn a_short_inner_chunk() {
        let (list, store, _) = small();
        let index = index_of(&list, &store).unwrap();
        let three = recipes::encode(&[vec![[1; 20], [3; 20], [2; 20]]]);
        for form in [FORM1, FORM2] {
            let (index, mut out) = (scanned_in(&form, &list, &store), [0xEE; 30]);
            assert_eq!(answer(|number| count(&index, &three, number)), (17, UNTOLD));
            assert_eq!(answer(|number| join(&index, &three, &KEY, &mut out, number, &mut [0; 4])), (17, UNTOLD));
            assert_eq!(out, [0xEE; 30]);
        }
        let (mut indexed, mut out, mut length, mut found) = (vec![0; SMALL], vec![0xEE; 28], UNTOLD, UNTOLD);
        let code = search(&list, &store, &three, &KEY, (&mut indexed, &mut out), (&mut length, &mut found), &mut [0; 4]);
        assert_eq!((code, length, found, &indexed), (0, SMALL as u64, 3, &index));
        let row = |offset: u8, word: u8| [0, 0, 0, 0, offset, 0, 0, 0, word];
        assert_eq!(out, [&row(1, 0)[..], &row(3, 1), &row(4, 0), &[0xEE]].concat());
        let two = recipes::encode(&[vec![[1; 20], [3; 20]]]);
        let mut out = [0; 9];
        assert_eq!(answer(|number| join(&index, &two, &KEY, &mut out, number, &mut [0; 4])), (0, 1));
        assert_eq!(out, [0, 0, 0, 0, 1, 0, 0, 0, 0]);
    }

    /// Request 105: 20 is the store check's, in every call that has it, behind the keywords' numbers.
    #[test]
    fn a_store_that_ends_beyond_32_bits() {
        let list = list_of(false, &[b"A"]);
        let mut store = [store::MARK, 4_096u32.to_le_bytes()].concat();
        for k in 0..4_096u32 {
            let offset = 8 + 28 * 4_096 + u64::from(k) * 1_048_576;
            store.extend([&k.to_le_bytes().repeat(5)[..], &(offset as u32).to_le_bytes(), &1_048_576u32.to_le_bytes()].concat());
        }
        let (mut index, mut out) = ([0xEE; 50], [0xEE; 50]);
        assert_eq!((store.len(), check_store(&store)), (114_696, 20));
        assert_eq!(answer(|length| scan_size(&list, &store, length)), (20, UNTOLD));
        assert_eq!(answer(|length| scan(&list, &store, &mut index, (length, &mut 0))), (20, UNTOLD));
        assert_eq!(answer(|length| scan(&list[..1], &store, &mut index, (length, &mut 0))), (1, UNTOLD));
        assert_eq!((chunk(&store, &[1; 20]), chunk(&store, &[1; 19])), (Err(20), Err(20)));
        assert_eq!(
            answer(|n| search(&list, &store, &[0; 4], &KEY, (&mut index, &mut out), (n, &mut 0), &mut [0; 4])),
            (20, UNTOLD)
        );
        assert_eq!((index, out), ([0xEE; 50], [0xEE; 50]));
    }

    /// Request 106: on stores that differ in their holes alone every call answers and writes the same.
    #[test]
    fn holes_bear_on_nothing() {
        let (list, _, recipes) = small();
        let chunks = [([1; 20], &b"XAB"[..]), ([2; 20], b"ABAX"), ([3; 20], b"A")];
        let answers = |filler: u8, behind: usize| {
            let holes = [vec![filler; 2], vec![], vec![filler; 9], vec![filler; behind]];
            let store = store::encode_with_holes(&chunks, &holes);
            let (mut index, mut out, mut length, mut count) = (vec![0xEE; SMALL + 1], vec![0xEE; 30], UNTOLD, UNTOLD);
            let code = search(&list, &store, &recipes, &KEY, (&mut index, &mut out), (&mut length, &mut count), &mut [0; 4]);
            let found = chunk(&store, &[2; 20]);
            assert_eq!(&store[found.clone().unwrap()], b"ABAX");
            (check_store(&store), code, length, count, index, out, found, moves_of(&list, &store))
        };
        let first = answers(b'A', 0);
        assert_eq!((first.0, first.1, first.2, first.3, &first.6, first.7), (0, 0, SMALL as u64, 3, &Ok(97..101), Ok(10)));
        assert_eq!(first.4[..SMALL], index_of(&list, &store::encode(&chunks)).unwrap());
        for (filler, behind) in [(b'B', 0), (b'A', 1), (0, 300)] {
            assert_eq!(answers(filler, behind), first);
        }
    }

    /// Document 01's small vault under the older marks: the same list.
    #[test]
    fn the_old_marks_are_joined() {
        let (list, store, recipes) = small();
        let [old, older, new] = KNOWN.map(|form| scanned_in(&form, &list, &store));
        assert_eq!((old.len(), older.len(), new.len(), &new[..4]), (136, 138, 138, &[0x44, 0x4D, 0x33, 0x0A][..]));
        assert_eq!((index_of(&list, &store), &older[4..]), (Ok(new.clone()), &new[4..]));
        let list_of = |index: &[u8]| {
            let mut out = [0; 27];
            (answer(|count| join(index, &recipes, &KEY, &mut out, count, &mut [0; 4])), out)
        };
        assert_eq!(list_of(&old).0, (0, 3));
        assert_eq!((list_of(&old), list_of(&older)), (list_of(&new), list_of(&new)));
        assert_eq!((body(&old, &[3; 20]), body(&new, &[3; 20])), (Ok(130..136), Ok(132..138)));
    }

    #[test]
    fn lookups() {
        let (list, store, _) = small();
        let index = index_of(&list, &store).unwrap();
        assert_eq!(chunk(&store, &[2; 20]), Ok(95..99));
        assert_eq!(chunk(&store, &[4; 20]), Err(15));
        assert_eq!(chunk(&store, &[2; 19]), Err(19));
        assert_eq!(chunk(&store[..99], &[2; 19]), Err(7));
        assert_eq!(body(&index, &[3; 20]), Ok(SMALL - 6..SMALL));
        assert_eq!(body(&index, &[4; 20]), Err(15));
        assert_eq!(body(&index, &[]), Err(19));
    }

    /// The occurrences in every file of so many of these pieces: the join's, and the direct search's.
    fn joined_and_searched(fold: bool, words: &[&[u8]], pieces: &[&[u8]], places: u32) -> usize {
        let list = list_of(fold, words);
        let chunks: Vec<_> = pieces.iter().enumerate().map(|(k, p)| ([k as u8; 20], *p)).collect();
        let store = store::encode(&chunks);
        let count = pieces.len();
        let file = |f: usize| (0..places).map(|p| [(f / count.pow(p) % count) as u8; 20]).collect();
        let files: Vec<Vec<crate::Fingerprint>> = (0..count.pow(places)).map(file).collect();
        let index = index::read(&index_of(&list, &store).unwrap()).unwrap();
        let joined = Joined::new(&index, &recipes::encode(&files)).unwrap().list();
        let restored = direct::restore(&store, &store::read(&store).unwrap(), &files).unwrap();
        assert_eq!(joined, direct::search(&keywords::read(&list).unwrap(), &restored));
        joined.len()
    }

    #[test]
    fn the_join_is_the_direct_search() {
        let words: &[&[u8]] = &[b"ABA", b"AA", b"A", b"BAAB"];
        assert!(joined_and_searched(true, words, &[b"XAB", b"abaX", b"AAA", b"bab", b"aAaAa", b"Baa"], 3) > 500);
    }

    /// Request 108: pieces that are shorter than the keywords, in files of three to seven.
    #[test]
    fn the_join_is_the_direct_search_of_small_chunks() {
        let words: &[&[u8]] = &[b"ABAAB", b"AAAA", b"BAB", b"ABABABA", b"BB", b"xa"];
        let pieces: [(&[&[u8]], u32, usize); 4] = [
            (&[b"A", b"b"], 7, 200),
            (&[b"a", b"B", b"AB", b"BA"], 5, 1_000),
            (&[b"A", b"aab", b"xAB", b"ABA", b"B"], 4, 500),
            (&[b"XAB", b"ABAX", b"A", b"AA"], 4, 300),
        ];
        for (pieces, places, least) in pieces {
            let found = joined_and_searched(true, words, pieces, places);
            assert!(found > least, "{found} of {least}");
        }
    }

    /// Request 108: a keyword of 32 bytes that repeats itself, over chunks of one byte and longer ones.
    #[test]
    fn the_longest_keyword_over_small_chunks() {
        for (word, period) in [(vec![b'A'; 32], &b"A"[..]), (b"AB".repeat(16), b"AB"), (b"AAB".repeat(11)[..32].to_vec(), b"AAB")]
        {
            let letters: Vec<&[u8]> = period.chunks(1).collect();
            let chunks: Vec<&[u8]> = [&letters[..], &[&word[..30], &word[1..32], &word, b"AAA"]].concat();
            let keyed: Vec<_> = chunks.iter().enumerate().map(|(k, chunk)| ([k as u8; 20], *chunk)).collect();
            let (list, store) = (
                list_of(false, &[&word, &word[..31], &word[1..]][..if period.len() == 1 { 2 } else { 3 }]),
                store::encode(&keyed),
            );
            let repeated = |count: usize| (0..count).map(|p| [(p % letters.len()) as u8; 20]).collect::<Vec<_>>();
            let files: Vec<Vec<_>> =
                (0..4).map(|k| [repeated(40), vec![[(letters.len() + k) as u8; 20]], repeated(33)].concat()).collect();
            let joined =
                Joined::new(&index::read(&index_of(&list, &store).unwrap()).unwrap(), &recipes::encode(&files)).unwrap().list();
            let restored = direct::restore(&store, &store::read(&store).unwrap(), &files).unwrap();
            assert_eq!(joined, direct::search(&keywords::read(&list).unwrap(), &restored));
            assert!(joined.len() > 40, "{}", joined.len());
        }
    }

    /// Request 104, inside chunks and across: the same pieces with and without the flag.
    #[test]
    fn the_join_is_the_direct_search_of_accented_letters() {
        let words: &[&[u8]] = &[b"\xC9\xE9\xC9", b"\xE9\xDE", b"\xD7\xC9", b"\xDF\xDF", b"\xF8"];
        let pieces: [&[u8]; 6] =
            [b"\xC9\xE9", b"\xE9\xC9", b"\xFE\xF7\xE9\xC9", b"\xDF\xFF\xD7", b"\xD8\xE9", b"\xDF\xBF\xC9\xC9"];
        let [with, without] = [true, false].map(|fold| joined_and_searched(fold, words, &pieces, 3));
        assert!(with > 300 && 3 * without < with && without > 0, "{with} {without}");
    }
}
