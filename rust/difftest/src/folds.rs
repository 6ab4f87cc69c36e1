//! The borders of the fold (request 104): keywords and chunks of the bytes at which the map begins and ends, and an account of where
//! two bytes 20 (hexadecimal) apart have met. [`inputs::vault`](crate::inputs::vault) draws them too.

use crate::across;
use crate::fixed::{case, key, Chunks};
use crate::inputs::{self, list, Case};
use crate::rng::Rng;
use oracle::form::{FORM1, NEWEST};
use oracle::records::Record;
use oracle::{index, Fingerprint};
use std::collections::BTreeMap;

/// The first and the last byte of each stretch that folds, the bytes beside these, and all of them 20 (hexadecimal) higher.
pub const BORDERS: [u8; 21] = [
    0x40, 0x41, 0x5A, 0x5B, 0x60, 0x61, 0x7A, 0x7B, 0xBF, 0xC0, 0xD6, 0xD7, 0xD8, 0xDE, 0xDF, 0xE0, 0xF6, 0xF7, 0xF8, 0xFE, 0xFF,
];

/// The borders that have another one 20 higher; DF is one of both.
const LOWER: [u8; 11] = [0x40, 0x41, 0x5A, 0x5B, 0xBF, 0xC0, 0xD6, 0xD7, 0xD8, 0xDE, 0xDF];

/// A byte 20 (hexadecimal) from this one.
pub fn beside(rng: &mut Rng, b: u8) -> u8 {
    match b {
        0xBF => 0xDF,
        0xDF => *rng.pick(&[0xBF, 0xFF]),
        _ => b ^ 0x20,
    }
}

const KIND: &str = "the fold's borders, by hand";

/// A keyword for each byte.
fn keywords(bytes: impl Iterator<Item = u8>, fold: bool, of: impl Fn(u8) -> Vec<u8>) -> Vec<u8> {
    let words: Vec<Vec<u8>> = bytes.map(of).collect();
    list(fold, &words.iter().map(|word| &word[..]).collect::<Vec<_>>())
}

/// A chunk of one byte for each byte, and files in which it stands before and behind each of these others.
fn bytes_alone(bytes: &[u8], others: &[u8]) -> (Chunks, Vec<Vec<Fingerprint>>) {
    let of = |b: u8| key(usize::from(b));
    let mut all: Vec<u8> = [bytes, others].concat();
    all.sort();
    all.dedup();
    let files = bytes.iter().flat_map(|b| others.iter().flat_map(|o| [vec![of(*b), of(*o)], vec![of(*o), of(*b)]]));
    (all.iter().map(|b| (of(*b), vec![*b])).collect(), files.collect())
}

/// Each of these keyword bytes beside each of these bytes of data: inside a chunk, and in the left and in the right piece of a keyword
/// that crosses.
fn met(kind: &'static str, fold: bool, words: &[u8], data: &[u8]) -> Vec<Case> {
    let words = || words.iter().copied();
    let (alone, files) = bytes_alone(data, b".");
    let whole = vec![(key(1), data.to_vec()), (key(2), data.iter().rev().copied().collect())];
    vec![
        case(kind, keywords(words(), fold, |b| vec![b]), &whole, &[vec![key(1)], vec![key(2), key(2), key(1)]]),
        case(kind, keywords(words(), fold, |b| vec![b, b'.']), &alone, &files),
        case(kind, keywords(words(), fold, |b| vec![b'.', b]), &alone, &files),
    ]
}

/// Every border, with the flag and without: in occurrences, in pieces, in cells, in refusal 4.
pub fn by_hand() -> Vec<Case> {
    let higher = LOWER.map(|b| b + 0x20);
    let mut cases = Vec::new();
    for fold in [false, true] {
        cases.extend(met(KIND, fold, &LOWER, &BORDERS));
        cases.extend(met(KIND, fold, &higher, &BORDERS));
        // A byte, the higher one, the byte again: cell (2,2) has two starts where these are alike and none where they aren't.
        let pairs = |b: u8| [[b, b + 0x20], [b + 0x20, b], [b, b], [b + 0x20, b + 0x20]];
        let chunk = |b: u8, k: usize| (key(4 * usize::from(b) + k), pairs(b)[k].to_vec());
        let chunks: Chunks = LOWER.iter().flat_map(|b| (0..4).map(|k| chunk(*b, k))).collect();
        let places = |b: u8| (0..16).map(move |k| vec![chunk(b, k / 4).0, chunk(b, k % 4).0]);
        let files: Vec<Vec<Fingerprint>> = LOWER.iter().flat_map(|b| places(*b)).collect();
        let cells = case(KIND, keywords(LOWER.into_iter(), fold, |b| vec![b, b + 0x20, b]), &chunks, &files);
        cases.extend(across::under_each_mark(cells));
        // Two keywords that differ in one such byte, in a list and in an index, whose directory is cut short in some.
        for b in LOWER {
            let (one, two) = ([b'c', b, b'f'], [b'c', b + 0x20, b'f']);
            for words in [&[&[b][..], &[b + 0x20]][..], &[&one, b"x", &two], &[&two, b"cf", &one]] {
                let mut pair = case(KIND, list(fold, words), &vec![(key(1), [one, two].concat())], &[vec![key(1), key(1)]]);
                let mut bytes = index::encode(&NEWEST, &pair.list, &[(key(1), 6, &b""[..])]);
                bytes.truncate(bytes.len() - usize::from(words.len() == 3 && words[0] == one));
                pair.index = Some(bytes);
                cases.push(pair);
            }
        }
    }
    cases.push(older_index());
    cases
}

/// What a scan wrote before request 104. No call can tell: it is joined by the wider map, and lacks what only that map finds.
fn older_index() -> Case {
    let words = list(true, &[b"\xC9\xE9\xC9"]);
    let chunks: Chunks = vec![(key(1), b"\xC9\xE9".to_vec()), (key(2), b"\xE9\xC9".to_vec()), (key(3), b"\xE9\xE9\xE9".to_vec())];
    let files = [vec![key(1), key(2)], vec![key(3)], vec![key(1), key(1), key(2), key(2)]];
    let body = |prefix, suffix| Record { prefix, suffix, ..Record::default() }.encode(&FORM1, 0);
    let entries = [(key(1), 2, body(2, 1)), (key(2), 2, body(1, 2)), (key(3), 3, body(0, 0))];
    Case { index: Some(index::encode(&FORM1, &words, &entries)), ..case(KIND, words, &chunks, &files) }
}

/// Every byte of a keyword beside every byte of data.
pub fn every_byte(_: &mut Rng) -> Vec<Case> {
    let all: Vec<u8> = (0..=255).collect();
    let lists = || all.chunks(16);
    [false, true].iter().flat_map(|fold| lists().flat_map(|words| met("every two bytes", *fold, words, &all))).collect()
}

/// A vault of a few borders and the bytes 20 from them; in some the last keyword is another one with such bytes changed.
pub fn vault(rng: &mut Rng) -> Case {
    let mut letters = Vec::new();
    for _ in 0..rng.range(1, 3) {
        let b = *rng.pick(&LOWER);
        letters.extend([b, b + 0x20]);
    }
    if rng.percent(40) {
        letters.push(*rng.pick(b".xX"));
    }
    let kind = "the fold's borders";
    let words = inputs::words_of(rng, letters);
    let (mut case, mut words, _) = inputs::vault_of(rng, kind, words);
    if rng.percent(35) {
        let mut twin = rng.pick(&words.keywords.words).clone();
        for _ in 0..rng.range(1, 2) {
            let at = rng.below(twin.len());
            twin[at] = beside(rng, twin[at]);
        }
        words.keywords.words.truncate(15);
        words.keywords.words.push(twin);
        case.list = words.list();
        if rng.percent(50) {
            case.index = Some(index::encode::<&[u8]>(&NEWEST, &case.list, &[]));
        }
    } else if rng.percent(40) {
        case.index = inputs::scanned(rng, &case);
    }
    case
}

/// How often two bytes 20 (hexadecimal) apart have met where all else was the same: in a keyword and a chunk, in a keyword and a place
/// that crosses chunks, in two keywords. By the lower byte and the fold flag.
#[derive(Default)]
pub struct Meetings(BTreeMap<(u8, bool), [u64; 3]>);

/// The lower byte of the pair in which they differ, if they are equal but for bytes of one pair of borders.
fn differ(a: &[u8], b: &[u8]) -> Option<u8> {
    let mut pair = None;
    for (x, y) in a.iter().zip(b).filter(|(x, y)| x != y) {
        let lower = *x.min(y);
        if x.abs_diff(*y) != 0x20 || !LOWER.contains(&lower) || pair.is_some_and(|pair| pair != lower) {
            return None;
        }
        pair = Some(lower);
    }
    pair.filter(|_| a.len() == b.len())
}

impl Meetings {
    fn add(&mut self, lower: Option<u8>, fold: bool, how: usize) {
        if let Some(lower) = lower {
            self.0.entry((lower, fold)).or_default()[how] += 1;
        }
    }

    /// The keywords in a restored file whose chunks end at these offsets.
    pub fn in_file(&mut self, fold: bool, words: &[Vec<u8>], data: &[u8], ends: &[usize]) {
        for word in words {
            for (at, part) in data.windows(word.len()).enumerate() {
                let crosses = ends.iter().any(|end| at < *end && *end < at + word.len());
                self.add(differ(word, part), fold, usize::from(crosses));
            }
        }
    }

    /// The keywords of a list beside each other.
    pub fn in_list(&mut self, fold: bool, words: &[&[u8]]) {
        for (k, word) in words.iter().enumerate() {
            words[..k].iter().for_each(|earlier| self.add(differ(earlier, word), fold, 2));
        }
    }

    fn of(&self, lower: u8, fold: bool) -> [u64; 3] {
        self.0.get(&(lower, fold)).copied().unwrap_or_default()
    }

    /// The pairs that have not met in some way.
    pub fn missing(&self) -> Vec<String> {
        let all = LOWER.iter().flat_map(|b| [(*b, false), (*b, true)]);
        let never = all.filter(|(b, fold)| self.of(*b, *fold).contains(&0));
        never.map(|(b, fold)| format!("{b:02X} and {:02X} with flag {}", b + 0x20, u8::from(fold))).collect()
    }

    pub fn report(&self) {
        println!("\nthe fold's borders: two bytes where all else is the same; in a chunk, across chunks, in two keywords");
        for b in LOWER {
            let [without, with] = [false, true].map(|fold| self.of(b, fold).map(|n| format!("{n:>8}")).concat());
            let map = if oracle::keywords::alike(true, &[b], &[b + 0x20]) { "alike" } else { "not alike" };
            println!("  {b:02X} {:02X}  flag 0{without}   flag 1{with}  ({map})", b + 0x20);
        }
    }
}
