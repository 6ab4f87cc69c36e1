//! Stores whose entries end around 4,294,967,295 (request 105, refusal 20): many of the longest chunks, or a few with holes (request 106).
//! Of most of them only the directory is there: it alone is judged before the last end is.

use crate::fixed::key;
use crate::inputs::{list, lookups, Case};
use crate::rng::Rng;
use oracle::form::NEWEST;
use oracle::{recipes, store, U32};

const LONGEST: u64 = NEWEST.longest_chunk;

/// As many of the longest chunks as end within 32 bits.
const WITHIN: usize = 4_095;

/// A store's directory of entries with these offsets and lengths, cut to 32 bits.
pub fn entries(entries: &[(u64, u64)]) -> Vec<u8> {
    let mut bytes = [store::MARK, (entries.len() as u32).to_le_bytes()].concat();
    for (k, (offset, size)) in entries.iter().enumerate() {
        bytes.extend([&key(k)[..], &(*offset as u32).to_le_bytes(), &(*size as u32).to_le_bytes()].concat());
    }
    bytes
}

/// The same for chunks of these lengths without holes.
fn directory(sizes: &[u64]) -> Vec<u8> {
    let mut end = 8 + 28 * sizes.len() as u64;
    let entry = |size: &u64| {
        end += size;
        (end - size, *size)
    };
    entries(&sizes.iter().map(entry).collect::<Vec<_>>())
}

/// The longest chunks that end within 32 bits, and then these.
fn behind(last: &[u64]) -> Vec<u64> {
    [&[LONGEST; WITHIN][..], last].concat()
}

/// The bytes left to 4,294,967,295 behind the longest chunks, in a directory with `more` entries behind them.
fn left(more: u64) -> u64 {
    U32 - (8 + 28 * (WITHIN as u64 + more)) - WITHIN as u64 * LONGEST
}

fn put(store: &mut [u8], entry: usize, at: usize, number: u64) {
    let from = 8 + 28 * entry + at;
    store[from..from + 4].copy_from_slice(&(number as u32).to_le_bytes());
}

fn case(kind: &'static str, store: Vec<u8>) -> Case {
    let keys = vec![key(0).to_vec(), key(WITHIN).to_vec(), vec![0x77; 20], vec![1; 19]];
    Case {
        kind,
        list: list(false, &[b"A"]),
        store,
        index: None,
        recipes: recipes::encode(&[vec![key(0)]]),
        keys,
        queries: vec![],
        lents: vec![],
    }
}

/// Where an entry's length and its offset are.
const OFFSET: usize = 20;
const LENGTH: usize = 24;

const KIND: &str = "ends around 32 bits, by hand";

/// The longest chunks and then these, with numbers put into entries: the entry, where in it, and the number.
fn with(last: &[u64], faults: &[(usize, usize, u64)]) -> Case {
    let mut store = directory(&behind(last));
    faults.iter().for_each(|(entry, at, number)| put(&mut store, *entry, *at, *number));
    case(KIND, store)
}

/// Ends beside 4,294,967,295, sums that wrap, and each order of 20 and another test.
pub fn by_hand() -> Vec<Case> {
    let mut cases = vec![
        // At the border and beside it, in the last entry and in the last but one.
        with(&[LONGEST], &[]),
        with(&[left(1) - 1], &[]),
        with(&[left(1)], &[]),
        with(&[left(1) + 1], &[]),
        with(&[left(2), 1], &[]),
        with(&[left(2) - 1, 1], &[]),
        with(&[left(2) - 1, 2], &[]),
        with(&[left(2) + 1, 1], &[]),
        with(&[], &[]),
        // Every later end wraps too, up to an end that lies within the bytes that are there.
        with(&[LONGEST; 5], &[]),
        with(&[left(2) + 1, 8 + 28 * (WITHIN as u64 + 2)], &[]),
    ];
    cases.extend(beside_other_entries());
    cases.extend([LONGEST, left(1)].into_iter().flat_map(beside_other_tests));
    cases
}

/// 20 and 7, of one entry and of two.
fn beside_other_entries() -> Vec<Case> {
    let (last, next) = (WITHIN, WITHIN + 1);
    vec![
        // The entry's own length and offset come first; an offset behind a hole isn't wrong.
        with(&[LONGEST], &[(last, LENGTH, 0)]),
        with(&[LONGEST], &[(last, LENGTH, LONGEST + 1)]),
        with(&[LONGEST], &[(last, LENGTH, U32)]),
        with(&[LONGEST], &[(last, OFFSET, 0)]),
        with(&[LONGEST], &[(last, OFFSET, U32)]),
        with(&[LONGEST], &[(last, OFFSET, U32 - LONGEST + 1)]),
        with(&[LONGEST], &[(last, OFFSET, U32), (last, LENGTH, 0)]),
        with(&[LONGEST], &[(last, OFFSET, U32 - left(1) - 1)]),
        // An entry far in front, behind a hole: its own end, and the next one's offset.
        with(&[LONGEST], &[(7, OFFSET, U32)]),
        with(&[LONGEST], &[(7, OFFSET, U32 - LONGEST)]),
        with(&[LONGEST], &[(7, OFFSET, U32), (7, LENGTH, LONGEST + 1)]),
        with(&[1], &[(7, LENGTH, U32)]),
        // The entry before comes first, the next one doesn't.
        with(&[LONGEST], &[(last - 1, LENGTH, 0)]),
        with(&[LONGEST], &[(last - 1, OFFSET, 0)]),
        with(&[LONGEST], &[(0, LENGTH, LONGEST + 1)]),
        with(&[LONGEST, 0], &[]),
        with(&[LONGEST, LONGEST + 1], &[]),
        with(&[LONGEST, 1], &[(next, OFFSET, 7)]),
        with(&[left(2), 0], &[]),
        with(&[left(2), 1], &[(next, OFFSET, 0)]),
        with(&[left(2), LONGEST + 1], &[]),
    ]
}

/// With a last chunk of that length: before 8, and behind 6 and 5; the keywords' refusals before the store's; some of the chunks' bytes.
fn beside_other_tests(size: u64) -> Vec<Case> {
    let of = |spoil: &dyn Fn(&mut Case)| {
        let mut case = with(&[size], &[]);
        spoil(&mut case);
        case
    };
    vec![
        of(&|case| case.store.copy_within(8..28, 8 + 28 * WITHIN)),
        of(&|case| case.store.truncate(case.store.len() - 1)),
        of(&|case| {
            case.store.truncate(case.store.len() - 1);
            case.store[3] = 0;
        }),
        of(&|case| case.store[4..8].copy_from_slice(&(WITHIN as u32 + 2).to_le_bytes())),
        of(&|case| case.list = vec![2, 0, 1, 0x41, 1, 0x41]),
        of(&|case| case.store.resize(case.store.len() + 1_000, b'A')),
    ]
}

/// The readings' entries, alone and in twos, and those beside them; with no byte behind the directory, and with some, into which an end that
/// wraps falls.
pub fn few_by_hand() -> Vec<Case> {
    let lists: [&[(u64, u64)]; 26] = [
        &[(U32, 1)],
        &[(U32 - 1, 1)],
        &[(U32 - 1, 2)],
        &[(U32, 38)],
        &[(U32, 37)],
        &[(U32, LONGEST)],
        &[(U32, LONGEST + 1)],
        &[(U32, 0)],
        &[(U32, U32)],
        &[(U32 - LONGEST, LONGEST)],
        &[(U32 - LONGEST + 1, LONGEST)],
        &[(1 << 31, 1)],
        &[(64, 0), (U32, 1)],
        &[(U32, 1), (64, 0)],
        &[(U32, 1), (64, 1)],
        &[(U32, 66), (65, 1)],
        &[(64, 1), (U32, 1)],
        &[(64, 1_000), (U32, 1)],
        &[(1_000, 1), (U32, 1)],
        &[(1_000, 1), (U32 - 1, 1)],
        &[(64, 1), (U32 - 1, 1)],
        &[(U32 - 1, 1), (U32 - 1, 2)],
        &[(U32 - 1, 1), (U32 - 1, 1)],
        &[(U32 - 1, 1), (U32, 1)],
        &[(U32 - 1, 1), (U32, 0)],
        &[(U32, 1), (U32, 1)],
    ];
    let mut cases = Vec::new();
    for (list, more) in lists.iter().flat_map(|list| [0, 1, 100].map(|more| (list, more))) {
        let with = |bytes: Vec<u8>| case("few chunks around 32 bits, by hand", bytes);
        let sound = with([entries(list), vec![b'A'; more]].concat());
        let mut twins = sound.clone();
        twins.store.copy_within(8..28, 8 + 28 * (list.len() - 1));
        cases.extend([sound, twins]);
    }
    cases
}

/// Up to four entries, each at, near or far behind the end of the one before.
pub fn few(rng: &mut Rng) -> Case {
    let count = rng.range(1, 4);
    let mut end = 8 + 28 * count as u64;
    let mut list = Vec::new();
    for _ in 0..count {
        let far = [U32, U32 - 1, U32 - LONGEST, U32 - LONGEST + 1, 1 << 31, end.wrapping_sub(1) & U32];
        let offset = if rng.percent(50) { end + rng.below(3) as u64 } else { *rng.pick(&far) };
        let size = *rng.pick(&[1, 1, 2, 3, 40, LONGEST, LONGEST, 0, LONGEST + 1, U32]);
        end = (offset + size) & U32;
        list.push((offset, size));
    }
    let more = *rng.pick(&[0, 3, 100]);
    let keys = lookups(rng, &[key(0), key(count - 1)]);
    Case { keys, ..case("few chunks around 32 bits", [entries(&list), vec![b'A'; more]].concat()) }
}

/// A directory of about as many chunks as end within 32 bits, of lengths near the longest, with up to two faults.
pub fn random(rng: &mut Rng) -> Case {
    let count = rng.range(WITHIN, WITHIN + 4);
    let shorter = *rng.pick(&[0, 0, 20, 230]);
    let mut sizes: Vec<u64> = (0..count).map(|_| LONGEST - rng.below(shorter + 1) as u64).collect();
    if rng.percent(50) {
        // One entry ends at 4,294,967,295, or beside it.
        let at = rng.range(WITHIN, count.max(WITHIN + 1) - 1).min(count - 1);
        let before: u64 = 8 + 28 * count as u64 + sizes[..at].iter().sum::<u64>();
        sizes[at] = (U32 + rng.below(3) as u64).saturating_sub(before + 1);
    }
    let mut store = directory(&sizes);
    for _ in 0..rng.below(3) {
        let entry = *rng.pick(&[0, 1, WITHIN - 1, WITHIN - 1, WITHIN, WITHIN + 1, WITHIN + 2, count - 1]);
        let entry = entry.min(count - 1);
        match rng.below(4) {
            0 => put(&mut store, entry, LENGTH, *rng.pick(&[0, 1, LONGEST, LONGEST + 1, U32])),
            1 => put(&mut store, entry, OFFSET, *rng.pick(&[0, 1, U32 - 1, U32])),
            2 => store.copy_within(8..28, 8 + 28 * entry),
            _ => store.extend(rng.bytes(30)),
        }
    }
    let keys = lookups(rng, &[key(0), key(count - 1)]);
    Case { keys, ..case("ends around 32 bits", store) }
}
