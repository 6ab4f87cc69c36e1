//! Holes in a store (request 106): bytes before, between and behind the chunks, which bear on nothing. They are filled with what a scan or a
//! lookup that goes beyond a chunk would show: keywords, the rest of one that the chunk before begins, the front of one that the chunk
//! behind ends.

use crate::fixed::{case, key, small_chunks, Chunks};
use crate::inputs::{self, list, Case};
use crate::rng::Rng;
use oracle::keywords::{self, Keywords};
use oracle::records::record_of;
use oracle::store::{self, Chunk};
use oracle::Fingerprint;
use std::ops::Range;

/// The store of these chunks with holes, or with none.
pub fn store<B: AsRef<[u8]>>(rng: &mut Rng, keywords: Option<&Keywords>, chunks: &[(Fingerprint, B)]) -> Vec<u8> {
    let count = chunks.len();
    let kind = rng.below(6);
    let chunk = |k: usize| chunks.get(k).map_or(&[][..], |(_, chunk)| chunk.as_ref());
    let mut holes = Vec::new();
    for k in 0..=count {
        let here = match kind {
            0 => false,
            1 => k == 0,
            2 => 0 < k && k < count && rng.percent(60),
            3 => k == count,
            4 => true,
            _ => rng.percent(40),
        };
        let length = if here { length(rng) } else { 0 };
        let before = if k > 0 { chunk(k - 1) } else { &[] };
        holes.push(filled(rng, keywords, before, chunk(k), length));
    }
    store::encode_with_holes(chunks, &holes)
}

fn length(rng: &mut Rng) -> usize {
    match rng.below(20) {
        0..=3 => 1,
        4..=7 => rng.range(2, 5),
        8..=17 => rng.range(1, 40),
        18 => rng.range(60, 70),
        _ => rng.range(250, 700),
    }
}

/// So many bytes between these two chunks; where there is none, it is empty.
fn filled(rng: &mut Rng, keywords: Option<&Keywords>, before: &[u8], behind: &[u8], length: usize) -> Vec<u8> {
    let Some(keywords) = keywords else { return rng.bytes(length) };
    let word = rng.pick(&keywords.words).clone();
    let mut bytes: Vec<u8> = match rng.below(4) {
        0 => rng.bytes(length),
        1 => vec![*rng.pick(&[0, 0xFF, word[0]]); length],
        _ => word.iter().copied().cycle().take(length).collect(),
    };
    // At most 31 bytes of a chunk are a keyword's piece.
    let (end, start) = (&before[before.len().saturating_sub(31)..], &behind[..behind.len().min(31)]);
    if rng.percent(60) {
        let rest = &word[record_of(keywords.fold, &word, end).prefix..];
        let length = length.min(rest.len());
        bytes[..length].copy_from_slice(&rest[..length]);
    }
    if rng.percent(60) {
        let front = &word[..word.len() - record_of(keywords.fold, &word, start).suffix];
        let length = length.min(front.len());
        let at = bytes.len() - length;
        bytes[at..].copy_from_slice(&front[front.len() - length..]);
    }
    bytes
}

/// The holes of a good store: before each chunk, and behind the last one. Some are empty.
pub fn of(chunks: &[Chunk], length: usize) -> Vec<Range<usize>> {
    let directory = 8 + 28 * chunks.len();
    let ends = [directory].into_iter().chain(chunks.iter().map(|c| c.place.end));
    let starts = chunks.iter().map(|c| c.place.start).chain([length]);
    ends.zip(starts).map(|(end, start)| end..start).collect()
}

/// The case with other bytes in its store's holes, and mostly with another number of them behind the last chunk.
pub fn refilled(rng: &mut Rng, case: &Case) -> Option<Case> {
    let chunks = case.movable()?;
    let keywords = keywords::read(&case.list).ok();
    let mut places = of(&chunks, case.store.len());
    let last = places.last_mut()?;
    if rng.percent(80) {
        last.end = last.start + *rng.pick(&[0, 0, 1, 7, 28, last.len() + 1, last.len().saturating_sub(1)]);
    }
    let mut bytes = case.store.clone();
    bytes.resize(last.end, 0);
    for (k, place) in places.iter().enumerate() {
        let before = if k > 0 { &case.store[chunks[k - 1].place.clone()] } else { &[] };
        let behind = chunks.get(k).map_or(&[][..], |c| &case.store[c.place.clone()]);
        let hole = filled(rng, keywords.as_ref(), before, behind, place.len());
        bytes[place.clone()].copy_from_slice(&hole);
    }
    if bytes == case.store {
        bytes.push(rng.byte());
    }
    Some(inputs::changed("stores that differ in holes", case, bytes, &chunks))
}

/// Offsets for the small vault's chunks of 3, 4 and 1 bytes, good and wrong, in a store of 120 bytes whose directory ends at 92.
const ELSEWHERE: [[u8; 3]; 20] = [
    [92, 95, 99],
    [92, 95, 100],
    [93, 96, 100],
    [100, 104, 109],
    [100, 103, 107],
    [112, 115, 119],
    [113, 116, 120],
    [92, 95, 119],
    [92, 95, 120],
    [91, 95, 99],
    [60, 95, 99],
    [8, 95, 99],
    [0, 95, 99],
    [93, 95, 99],
    [92, 94, 99],
    [92, 92, 99],
    [95, 92, 99],
    [92, 95, 98],
    [100, 103, 106],
    [116, 112, 119],
];

/// The paper's small vault with a keyword's rest in every set of holes; no chunks, and bytes; chunks that touch the directory, each other
/// and the store's end.
pub fn by_hand() -> Vec<Case> {
    let kind = "holes by hand";
    let (a, b, c) = ([1; 20], [2; 20], [3; 20]);
    let of = |store: Vec<u8>| {
        let words = list(false, &[b"ABA", b"AA"]);
        Case { store, ..case(kind, words, &small_chunks(), &[vec![a, b], vec![c, c], vec![a, c], vec![b]]) }
    };
    let mut cases = Vec::new();
    // XAB | A is ABA, ABAX | ABA has one more, A | A is AA; and the fronts of what the next chunk ends.
    let fillers: [[&[u8]; 4]; 3] =
        [[b"A", b"A", b"ABA", b"A"], [b"ABAAB", b"A.AB", b"BA.A", b"AAA"], [b"\0", b"\0\0\0", b"\xFF", b"ABAX"]];
    for (set, filler) in (0..16).flat_map(|set| fillers.map(|filler| (set, filler))) {
        let hole = |k: usize| if set >> k & 1 == 1 { filler[k].to_vec() } else { vec![] };
        cases.push(of(store::encode_with_holes(&small_chunks(), &[0, 1, 2, 3].map(hole))));
    }
    // Behind a store without chunks: anything, a directory too.
    let none = store::encode::<&[u8]>(&[]);
    for more in [0, 1, 2, 27, 28, 29, 100] {
        cases.push(of([&none[..], &b"ABA".repeat(40)[..more]].concat()));
        cases.push(of([&none[..], &store::encode(&small_chunks())[8..][..more.min(92)]].concat()));
    }
    for offsets in ELSEWHERE {
        let mut bytes = store::encode_with_holes(&small_chunks(), &[vec![], vec![], vec![], b"ABAAB".repeat(4)]);
        (0..3).for_each(|k| bytes[8 + 28 * k + 20] = offsets[k]);
        cases.push(of(bytes));
    }
    cases
}

/// Holes that are longer than chunks and windows, and 65,000 chunks with holes between.
pub fn large(rng: &mut Rng) -> Vec<Case> {
    let kind = "long holes";
    let words: &[&[u8]] = &[b"A", b"AAAB", b"BA"];
    let chunks: Chunks = vec![(key(1), b"xAAA".to_vec()), (key(2), vec![b'A'; 65_536]), (key(3), b"AAABx".to_vec())];
    let files = [vec![key(1), key(2), key(3)], vec![key(3), key(1)]];
    let mut cases = Vec::new();
    for lengths in [[65_535, 65_536, 65_537, 70_000], [0, 1_048_577, 0, 0], [1, 3, 65_536, 1_048_576]] {
        let holes = lengths.map(|length| b"BAAA".iter().copied().cycle().take(length).collect::<Vec<u8>>());
        let store = store::encode_with_holes(&chunks, &holes);
        cases.push(Case { store, ..case(kind, list(false, words), &chunks, &files) });
    }
    let many: Chunks = (0..65_000).map(|k| (key(k), (0..rng.range(1, 4)).map(|_| *rng.pick(b"ABx")).collect())).collect();
    let holes: Vec<Vec<u8>> = (0..=many.len()).map(|_| (0..rng.below(4)).map(|_| *rng.pick(b"AB")).collect()).collect();
    let files: Vec<Vec<Fingerprint>> = (0..300).map(|_| (0..2).map(|_| rng.pick(&many).0).collect()).collect();
    let store = store::encode_with_holes(&many, &holes);
    cases.push(Case { store, ..case(kind, list(false, words), &many, &files) });
    cases
}
