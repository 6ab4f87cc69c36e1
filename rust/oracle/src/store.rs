//! Document 01, "Store", with requests 105 (number 20) and 106 (holes): the store check (5 to 8, and 20), and a writer for compaction and tests.

use crate::form::NEWEST;
use crate::{fingerprint, number, twice, Code, Fingerprint, MOST_CHUNKS, U32};
use std::ops::Range;

pub const MARK: [u8; 4] = [0x44, 0x56, 0x31, 0x0A];

/// A chunk's fingerprint, and where its bytes lie in the store.
#[derive(Clone, Debug, PartialEq, Eq)]
pub struct Chunk {
    pub key: Fingerprint,
    pub place: Range<usize>,
}

/// The store check.
pub fn read(store: &[u8]) -> Result<Vec<Chunk>, Code> {
    if store.len() < 8 || store[..4] != MARK {
        return Err(5);
    }
    let length = store.len() as u64;
    let count = number(store, 4);
    if count > MOST_CHUNKS || length < 8 + 28 * count {
        return Err(6);
    }
    let mut chunks = Vec::new();
    // Where the directory ends, then each chunk: the next one lies at or after it.
    let mut end = 8 + 28 * count;
    for k in 0..count as usize {
        let entry = 8 + 28 * k;
        let (offset, size) = (number(store, entry + 20), number(store, entry + 24));
        if !(1..=NEWEST.longest_chunk).contains(&size) || offset < end {
            return Err(7);
        }
        end = offset + size;
        if end > U32 {
            return Err(20);
        }
        chunks.push(Chunk { key: fingerprint(store, entry), place: offset as usize..end as usize });
    }
    if end > length {
        return Err(7);
    }
    if twice(chunks.iter().map(|c| &c.key)) {
        return Err(8);
    }
    Ok(chunks)
}

/// A store of these chunks, in this order, without holes. They need not be acceptable; lengths and offsets are cut to 32 bits.
pub fn encode<B: AsRef<[u8]>>(chunks: &[(Fingerprint, B)]) -> Vec<u8> {
    encode_with_holes(chunks, &[])
}

/// The same with holes: the bytes before each chunk, then those behind the last one. A hole that isn't given is none.
pub fn encode_with_holes<B: AsRef<[u8]>>(chunks: &[(Fingerprint, B)], holes: &[Vec<u8>]) -> Vec<u8> {
    let hole = |k: usize| holes.get(k).map_or(&[][..], |hole| hole);
    let mut bytes = MARK.to_vec();
    bytes.extend_from_slice(&(chunks.len() as u32).to_le_bytes());
    let mut end = 8 + 28 * chunks.len();
    for (k, (key, chunk)) in chunks.iter().enumerate() {
        let offset = end + hole(k).len();
        bytes.extend_from_slice(key);
        bytes.extend_from_slice(&(offset as u32).to_le_bytes());
        bytes.extend_from_slice(&(chunk.as_ref().len() as u32).to_le_bytes());
        end = offset + chunk.as_ref().len();
    }
    for (k, (_, chunk)) in chunks.iter().enumerate() {
        bytes.extend_from_slice(hole(k));
        bytes.extend_from_slice(chunk.as_ref());
    }
    bytes.extend_from_slice(hole(chunks.len()));
    bytes
}

#[cfg(test)]
mod tests {
    use super::*;

    fn code(store: &[u8]) -> Code {
        read(store).err().unwrap_or(0)
    }

    fn small() -> Vec<u8> {
        encode(&[([1; 20], &b"XAB"[..]), ([2; 20], b"ABAX"), ([3; 20], b"A")])
    }

    #[test]
    fn the_small_store() {
        let store = small();
        let places: Vec<usize> = read(&store).unwrap().iter().map(|c| c.place.start).collect();
        assert_eq!((store.len(), places), (100, vec![92, 95, 99]));
    }

    #[test]
    fn mark_and_count() {
        assert_eq!(code(b""), 5);
        assert_eq!(code(&[0x44, 0x56, 0x31, 0x0A, 0, 0, 0]), 5);
        assert_eq!(code(&[0x44, 0x56, 0x32, 0x0A, 0, 0, 0, 0]), 5);
        assert_eq!(code(&[0x44, 0x56, 0x31, 0x0A, 0, 0, 0, 0]), 0);
        assert_eq!(code(&[0x44, 0x56, 0x31, 0x0A, 1, 0, 0, 0]), 6);
        assert_eq!(code(&[0x44, 0x56, 0x31, 0x0A, 0xFF, 0xFF, 0xFF, 0xFF]), 6);
        let mut many = MARK.to_vec();
        many.extend_from_slice(&65_001u32.to_le_bytes());
        many.resize(8 + 28 * 65_001, 1);
        assert_eq!(code(&many), 6);
    }

    #[test]
    fn entries() {
        for (at, wrong) in [(8 + 20, 1), (8 + 24, 0), (8 + 24, 4), (8 + 28 + 20, 0), (8 + 56 + 26, 1)] {
            let mut store = small();
            store[at] = wrong;
            assert_eq!(code(&store), 7, "byte {at}");
        }
        let longest = NEWEST.longest_chunk as usize;
        assert_eq!(code(&encode(&[([1; 20], vec![0; longest])])), 0);
        assert_eq!(code(&encode(&[([1; 20], vec![0; longest + 1])])), 7);
        assert_eq!(code(&encode(&[([1; 20], b"")])), 7);
        for length in [65_535, 65_536, 65_537, 131_072] {
            assert_eq!(code(&encode(&[([1; 20], vec![0; length]), ([2; 20], vec![1])])), 0, "{length}");
        }
    }

    /// A store of which only the directory is there, with entries of these offsets and lengths.
    fn stated(entries: &[(u64, u64)]) -> Vec<u8> {
        let mut bytes = [MARK, (entries.len() as u32).to_le_bytes()].concat();
        for (k, (offset, size)) in entries.iter().enumerate() {
            bytes.extend_from_slice(&(k as u32).to_le_bytes().repeat(5));
            bytes.extend_from_slice(&(*offset as u32).to_le_bytes());
            bytes.extend_from_slice(&(*size as u32).to_le_bytes());
        }
        bytes
    }

    /// The same for chunks of these lengths without holes.
    fn directory(sizes: &[u64]) -> Vec<u8> {
        let mut end = 8 + 28 * sizes.len() as u64;
        let entry = |size: &u64| {
            end += size;
            (end - size, *size)
        };
        stated(&sizes.iter().map(entry).collect::<Vec<_>>())
    }

    /// Request 106: every set of holes, and the same chunks.
    #[test]
    fn holes() {
        let chunks = [([1; 20], &b"XAB"[..]), ([2; 20], b"ABAX"), ([3; 20], b"A")];
        for set in 0..16usize {
            let holes: Vec<Vec<u8>> = (0..4).map(|k| vec![b'A'; if set >> k & 1 == 1 { 1 + 7 * k } else { 0 }]).collect();
            let store = encode_with_holes(&chunks, &holes);
            assert_eq!(store.len(), 100 + holes.concat().len());
            let read = read(&store).unwrap();
            let found: Vec<(Fingerprint, &[u8])> = read.iter().map(|c| (c.key, &store[c.place.clone()])).collect();
            assert_eq!(found, chunks, "{set}");
            assert_eq!(read[0].place.start, 92 + holes[0].len());
        }
        assert_eq!(encode_with_holes(&chunks, &vec![vec![]; 4]), small());
    }

    /// Without chunks every length from 8 on.
    #[test]
    fn no_chunks() {
        let none = [&MARK[..], &[0; 4]].concat();
        for more in [0, 1, 2, 28, 1_000] {
            assert_eq!(read(&[&none[..], &vec![0xFF; more]].concat()), Ok(vec![]), "{more}");
        }
        assert_eq!(code(&none[..7]), 5);
    }

    /// One byte decides: in the directory, in the chunk before, at the store's end.
    #[test]
    fn chunks_that_touch_what_they_must_not() {
        let with = |entries: &[(u64, u64)], length: usize| {
            let mut store = stated(entries);
            store.resize(length, b'A');
            code(&store)
        };
        for (offset, want) in [(0, 7), (7, 7), (8, 7), (35, 7), (36, 0), (37, 0), (99, 0), (100, 7)] {
            assert_eq!(with(&[(offset, 1)], 100), want, "{offset}");
        }
        for (offset, want) in [(64, 7), (73, 7), (74, 0), (75, 0), (95, 0), (96, 7)] {
            assert_eq!(with(&[(64, 10), (offset, 5)], 100), want, "{offset}");
        }
        // Behind a hole the running end is the chunk's own; chunks that are there twice overlap.
        assert_eq!(with(&[(80, 10), (74, 5)], 100), 7);
        assert_eq!(with(&[(80, 10), (89, 5)], 100), 7);
        assert_eq!(with(&[(80, 10), (80, 10)], 100), 7);
        assert_eq!(with(&[(80, 10), (90, 10)], 100), 0);
        assert_eq!(with(&[(80, 10), (90, 10)], 99), 7);
    }

    /// The readings' vectors: few entries, far apart.
    #[test]
    fn holes_up_to_32_bits() {
        for (entries, want) in [
            (&[(U32, 1)][..], 20),
            (&[(U32 - 1, 1)], 7),
            (&[(U32, 38)], 20),
            (&[(U32, LONGEST + 1)], 7),
            (&[(U32, 0)], 7),
            (&[(U32 - LONGEST, LONGEST)], 7),
            (&[(U32 - LONGEST + 1, LONGEST)], 20),
            (&[(64, 0), (U32, 1)], 7),
            (&[(U32, 1), (64, 0)], 20),
            // Entry 0 ends beyond the store, entry 1 beyond 32 bits.
            (&[(64, 1), (U32, 1)], 20),
            (&[(1_000, 1), (U32 - 1, 2)], 20),
            // An offset before the end of the one before, and an end beyond.
            (&[(U32 - 1, 1), (U32 - 1, 2)], 7),
            (&[(U32 - 1, 1), (U32, 1)], 20),
            (&[(U32 - 1, 1), (U32, 0)], 7),
        ] {
            assert_eq!(code(&stated(entries)), want, "{entries:?}");
        }
        // The same with bytes for an end that wraps.
        let mut wraps = stated(&[(U32, 38)]);
        wraps.resize(100, b'A');
        assert_eq!(code(&wraps), 20);
    }

    const LONGEST: u64 = 1_048_576;

    /// 4,095 chunks of the longest length, and the last one's length with which it ends at U32.
    const LAST: u64 = U32 - (8 + 28 * 4_096) - 4_095 * LONGEST;

    /// The longest chunks and then these.
    fn behind_the_longest(last: &[u64]) -> Vec<u8> {
        directory(&[&[LONGEST; 4_095][..], last].concat())
    }

    #[test]
    fn an_end_beyond_32_bits() {
        assert_eq!(LAST, 933_879);
        let beyond = behind_the_longest(&[LONGEST]);
        assert_eq!((beyond.len(), code(&beyond)), (114_696, 20));
        assert_eq!(code(&behind_the_longest(&[LAST + 1])), 20);
        // An end at U32 is none beyond it; then the bytes are absent.
        assert_eq!(code(&behind_the_longest(&[LAST])), 7);
        assert_eq!(code(&directory(&[LONGEST; 4_095])), 7);
        // It may be followed by an entry whose end is beyond.
        assert_eq!(code(&behind_the_longest(&[LAST - 28, 1])), 20);
        // Sums that wrapped would go on.
        assert_eq!(code(&behind_the_longest(&[LONGEST; 900])), 20);
    }

    #[test]
    fn the_order_of_20_and_7() {
        let put = |store: &mut Vec<u8>, entry: usize, at: usize, number: u64| {
            let from = 8 + 28 * entry + at;
            store[from..from + 4].copy_from_slice(&(number as u32).to_le_bytes());
        };
        let with = |sizes: &[u64], entry: usize, at: usize, number: u64| {
            let mut store = behind_the_longest(sizes);
            put(&mut store, entry, at, number);
            code(&store)
        };
        // The entry's own length and offset come first.
        for size in [0, LONGEST + 1, U32] {
            assert_eq!(with(&[LONGEST], 4_095, 24, size), 7, "{size}");
        }
        for (offset, want) in [(0, 7), (1, 7), (U32 - LAST - 1, 7), (U32 - LAST, 20), (U32 - 1, 20), (U32, 20)] {
            assert_eq!(with(&[LONGEST], 4_095, 20, offset), want, "{offset}");
        }
        // An earlier entry's 7 comes first, the next one's doesn't.
        assert_eq!(with(&[LONGEST], 4_094, 24, 0), 7);
        assert_eq!(with(&[LONGEST], 4_094, 20, 0), 7);
        assert_eq!(with(&[LONGEST, 0], 0, 0, 0), 20);
        assert_eq!(with(&[LONGEST, LONGEST + 1], 0, 0, 0), 20);
        assert_eq!(with(&[LONGEST, 1], 4_096, 20, 7), 20);
        // An end at U32, and then a wrong entry.
        assert_eq!(with(&[LAST - 28, 0], 0, 0, 0), 7);
        assert_eq!(with(&[LAST - 28, 1], 4_096, 20, 0), 7);
        // Before the last end's 7 (the bytes are absent in all of these) and before 8; 6 and 5 before it.
        let mut twins = behind_the_longest(&[LONGEST]);
        twins.copy_within(8..28, 36);
        assert_eq!(code(&twins), 20);
        put(&mut twins, 4_095, 24, LAST);
        assert_eq!(code(&twins), 7);
        let mut cut = behind_the_longest(&[LONGEST]);
        cut.pop();
        assert_eq!(code(&cut), 6);
        cut[0] = 0;
        assert_eq!(code(&cut), 5);
    }

    #[test]
    fn twins() {
        let mut store = encode(&[([1; 20], &b"XAB"[..]), ([2; 20], b"ABAX"), ([1; 20], b"A")]);
        assert_eq!(code(&store), 8);
        // A byte behind the last chunk is a hole; one too few comes first.
        store.push(0);
        assert_eq!(code(&store), 8);
        store.truncate(99);
        assert_eq!(code(&store), 7);
        let (mut near_first, mut near_last) = ([1; 20], [1; 20]);
        near_first[0] = 2;
        near_last[19] = 2;
        assert_eq!(code(&encode(&[([1; 20], b"A"), (near_first, b"A"), (near_last, b"A")])), 0);
    }
}
