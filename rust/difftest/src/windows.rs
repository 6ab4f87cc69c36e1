//! Chunks longer than 65,535 bytes (request 105): lengths and places at which a library parts its work, and as many occurrences as a chunk
//! can have. The proved one walks a chunk in windows of [`WINDOW`] bytes, carries the node from one into the next, and first counts all
//! windows and then fills the lists of offsets window by window.

use crate::fixed::{case, key, Chunks};
use crate::holes;
use crate::inputs::{self, list, Case};
use crate::lanes;
use crate::rng::Rng;
use oracle::form::{Form, FORM1, FORM2, FORM3, KNOWN, NEWEST};
use oracle::keywords::{alike, Keywords};
use oracle::records::Record;
use oracle::{index, recipes, Fingerprint};

pub const WINDOW: usize = 65_536;

const LONGEST: usize = NEWEST.longest_chunk as usize;

/// The lengths around one window, two, and the longest chunk.
const LENGTHS: [usize; 8] = [WINDOW - 1, WINDOW, WINDOW + 1, 2 * WINDOW - 1, 2 * WINDOW, 2 * WINDOW + 1, LONGEST - 1, LONGEST];

/// The places at which a window begins, and the chunk's end.
fn borders(length: usize) -> Vec<usize> {
    (1..=length / WINDOW).map(|k| k * WINDOW).filter(|at| *at < length).chain([length]).collect()
}

fn words(fold: bool, words: &[&[u8]]) -> Keywords {
    oracle::keywords::read(&list(fold, words)).expect("good keywords")
}

/// Two keywords that overlap themselves, one inside of which the others lie, and single letters.
fn lists() -> Vec<Keywords> {
    vec![
        words(false, &[b"ABAAB", b"A", b"BAB"]),
        words(false, &[&[b'a'; 32], &[&[b'a'; 31][..], b"b"].concat(), b"ab"]),
        words(true, &[b"Video", b"deoV", b"o", b"\xC9\xE9\xC9"]),
        words(false, &[b"ab"]),
    ]
}

/// A chunk of that length: in filler, at each border the first keyword ends so many bytes behind it.
fn around_windows(words: &Keywords, length: usize, filler: u8, behind: usize) -> Vec<u8> {
    let mut data = vec![filler; length];
    borders(length).iter().for_each(|border| lanes::put(&mut data, &words.words[0], border + behind));
    lanes::put(&mut data, &words.words[0], length);
    data
}

/// Every length, with keywords that end before, at and behind each window's first byte, in filler that moves once and twice a byte.
fn by_hand() -> Vec<Case> {
    let kind = "chunks of several windows, by hand";
    let mut cases = Vec::new();
    for (k, words) in lists().iter().enumerate() {
        let n = words.words[0].len();
        let first = words.words[0][0];
        for (l, length) in LENGTHS.into_iter().enumerate() {
            // Ends at the border, one byte and all bytes behind it, one less: the node is carried in each way.
            let places = [0, 1, n - 1, n, n + 1];
            // The longest chunks: two keyword lists, two places each.
            let few = length > 3 * WINDOW;
            if few && k % 2 == 1 {
                continue;
            }
            let mut places = if few { vec![places[(k + l) % 5], 1] } else { places.to_vec() };
            places.sort();
            places.dedup();
            let filler = |behind: usize| if (l + behind) % 2 == 0 { b'.' } else { first };
            let chunk = |behind: usize| around_windows(words, length, filler(behind), behind);
            let chunks: Chunks = places.iter().map(|behind| (key(*behind), chunk(*behind))).collect();
            let files = [chunks.iter().map(|(key, _)| *key).collect::<Vec<_>>(), vec![chunks[0].0; 2]];
            cases.push(case(kind, words.encode(), &chunks, &files));
        }
    }
    cases
}

/// An occurrence at each byte, and fewer: the exact count takes 3 bytes, and the count byte is FF.
fn occurrences() -> Vec<Case> {
    let kind = "65,535 and more occurrences in a chunk";
    let of = |words: &[&[u8]], length: usize, files: &[Vec<Fingerprint>]| {
        case(kind, list(false, words), &vec![(key(1), vec![b'A'; length]), (key(2), b"xA".to_vec())], files)
    };
    let (alone, twice) = (vec![key(1)], vec![key(2), key(1), key(1), key(2)]);
    let mut cases: Vec<Case> = [WINDOW - 1, WINDOW, WINDOW + 1, 2 * WINDOW, WINDOW + 254, WINDOW + 255]
        .map(|length| of(&[b"A"], length, &[alone.clone()]))
        .into();
    cases.push(of(&[b"AA", b"A"], WINDOW + 1, &[twice.clone()]));
    cases.push(of(&[b"AAA", b"B"], LONGEST - 1, &[twice]));
    // Fewer than 255, at the borders of the kinds, spread over the windows.
    for count in [1, 2, 254, 255, 256] {
        let mut data = vec![b'.'; 3 * WINDOW + 5];
        let step = data.len() / count;
        (0..count).for_each(|k| data[k * step] = b'A');
        cases.push(case(kind, list(false, &[b"A", b".A."]), &vec![(key(1), data)], &[alone.clone()]));
    }
    // 65,536 times 2 bytes.
    let pairs: Vec<u8> = b"AB".iter().copied().cycle().take(2 * WINDOW).collect();
    cases.push(case(kind, list(false, &[b"AB", b"BA"]), &vec![(key(1), pairs)], &[vec![key(1), key(1)]]));
    // A chunk that is one byte too long, and one byte shorter.
    for length in [LONGEST + 1, LONGEST] {
        cases.push(case(
            kind,
            list(false, &[b"xA"]),
            &vec![(key(1), vec![b'.'; length]), (key(2), b"xA".to_vec())],
            &[alone.clone()],
        ));
    }
    cases
}

/// Indexes of long chunks under each mark: L around each mark's longest, offsets around L - n, and offsets that differ, rise or fall only in
/// their third byte.
pub fn long_entries() -> Vec<Case> {
    let kind = "long chunks in an index";
    let list = list(false, &[b"ABA", b"A"]);
    let mut cases = Vec::new();
    for (form, size) in
        KNOWN.iter().flat_map(|form| [65_534, 65_535, 65_536, 65_537, LONGEST, LONGEST + 1].map(|size| (form, size)))
    {
        let lists: [&[usize]; 10] = [
            &[],
            &[size - 3],
            &[size - 2],
            &[0, 65_532, size - 3],
            &[1, 65_537],
            &[65_537, 1],
            &[65_535, 65_536],
            &[65_536, 65_536],
            &[256, 65_535, 65_536, 65_537, 131_072],
            &[0, 65_536],
        ];
        for offsets in lists {
            let of = |n: usize, offsets: &[usize]| Record { prefix: n - 1, offsets: offsets.to_vec(), ..Record::default() };
            let body = [of(3, offsets).encode(form, 0), of(1, &[size - 1]).encode(form, 1)].concat();
            cases.push(with_index(kind, form, &list, &[(key(1), size as u64, body), (key(2), 3, vec![])]));
        }
    }
    // Each field's third byte, in a body of 255 and of 300 offsets; and each mark over the other's bodies.
    for count in [255, 300] {
        let good = Record { offsets: (0..count).collect(), ..Record::default() };
        for at in [5, 8, 11, 11 + 3 * (count - 1)].map(|field| field + 2) {
            for form in [FORM2, FORM3] {
                let mut body = good.encode(&form, 1);
                body[at] = 1;
                cases.push(with_index(kind, &form, &list, &[(key(1), LONGEST as u64, body)]));
            }
        }
        for (form, other) in [(FORM1, FORM2), (FORM2, FORM1), (FORM1, FORM3), (FORM3, FORM1), (FORM2, FORM3), (FORM3, FORM2)] {
            cases.push(with_index(kind, &form, &list, &[(key(1), 65_535, good.encode(&other, 1))]));
        }
    }
    for mark in [b"DM0\n", b"DM4\n", b"DM5\n", b"DM3\r", b"dm3\n", b"DV1\n", b"3MD\n"] {
        for form in KNOWN {
            let mut other = with_index(kind, &form, &list, &[(key(1), 3, vec![])]);
            other.index.as_mut().expect("it has one")[..4].copy_from_slice(mark);
            cases.push(other);
        }
    }
    cases
}

fn with_index(kind: &'static str, form: &Form, list: &[u8], entries: &[(Fingerprint, u64, Vec<u8>)]) -> Case {
    let files = [vec![key(1), key(1)], vec![key(1)]];
    let chunks = vec![(key(1), b"ABA".to_vec())];
    Case { index: Some(index::encode(form, list, entries)), ..case(kind, list.to_vec(), &chunks, &files) }
}

/// All records of a long chunk under the oldest mark, and under the new ones: 65,535 occurrences, joined.
fn most_entries() -> Vec<Case> {
    let kind = "the most occurrences in an index";
    let list = list(false, &[b"A"]);
    let all = |count: usize| Record { offsets: (0..count).collect(), ..Record::default() };
    let mut cases = Vec::new();
    for (form, count) in [(FORM1, 65_535), (FORM2, 65_535), (FORM2, 65_536), (FORM3, 65_536), (FORM2, 65_791), (FORM3, LONGEST)] {
        let body = all(count).encode(&form, 0);
        for size in [count as u64, count as u64 - 1] {
            cases.push(with_index(kind, &form, &list, &[(key(1), size, body.clone())]));
        }
        // One offset less than the exact count says, and one more.
        let mut fewer = body.clone();
        fewer.truncate(body.len() - form.width);
        let more = [&body[..], &form.field(count)].concat();
        cases.extend([fewer, more].map(|body| with_index(kind, &form, &list, &[(key(1), form.longest_chunk, body)])));
    }
    cases
}

/// Up to four keywords that overlap themselves, of two letters.
pub fn random_words(rng: &mut Rng) -> inputs::Words {
    let (a, b) = *rng.pick(&[(b'a', b'b'), (b'Z', b'A'), (0xC9, 0xE9), (0x00, 0xFF)]);
    let fold = rng.percent(50);
    let mut words: Vec<Vec<u8>> = Vec::new();
    for _ in 0..rng.range(1, 4) {
        let n = *rng.pick(&[1, 2, 3, 5, 8, 31, 32]);
        let period: Vec<u8> = (0..rng.range(1, 3)).map(|_| if rng.percent(60) { a } else { b }).collect();
        let mut word: Vec<u8> = period.iter().copied().cycle().take(n).collect();
        if rng.percent(40) {
            word[n - 1] = b;
        }
        if !words.iter().any(|w| alike(fold, w, &word)) {
            words.push(word);
        }
    }
    let size = 2 + words.iter().map(|w| 1 + w.len()).sum::<usize>();
    inputs::Words { letters: vec![a, b, b'.'], keywords: Keywords { fold, words, size } }
}

/// A chunk of several windows, with keywords and beginnings of keywords around each border.
fn random_chunk(rng: &mut Rng, words: &inputs::Words) -> Vec<u8> {
    let length = match rng.below(4) {
        0 => *rng.pick(&LENGTHS[..6]),
        1 => WINDOW * rng.range(1, 4) + rng.below(40),
        2 => WINDOW * rng.range(1, 4) - rng.below(40),
        _ => rng.range(WINDOW, 5 * WINDOW),
    };
    let word = rng.pick(&words.keywords.words).clone();
    let mut data = match rng.below(4) {
        0 => vec![word[0]; length],
        1 => word.iter().copied().cycle().take(length).collect(),
        2 => (0..length).map(|_| *rng.pick(&words.letters)).collect(),
        _ => vec![b'.'; length],
    };
    for border in borders(length) {
        let word = rng.pick(&words.keywords.words).clone();
        let end = (border + word.len() + 1).saturating_sub(rng.below(word.len() + 3));
        let piece = if rng.percent(70) { &word[..] } else { &word[..rng.range(1, word.len())] };
        lanes::put(&mut data, piece, end);
        if rng.percent(30) {
            data[border - 1] = *rng.pick(&words.letters);
        }
    }
    data
}

fn random(rng: &mut Rng) -> Case {
    let words = random_words(rng);
    let count = rng.range(1, 3);
    let keys = inputs::keys(rng, count);
    let chunks: Vec<(Fingerprint, Vec<u8>)> = keys.iter().map(|key| (*key, random_chunk(rng, &words))).collect();
    Case {
        kind: "chunks of several windows",
        list: words.list(),
        store: holes::store(rng, Some(&words.keywords), &chunks),
        index: None,
        recipes: recipes::encode(&[keys.clone(), vec![*rng.pick(&keys); 2]]),
        keys: inputs::lookups(rng, &keys),
        queries: vec![],
        lents: vec![],
    }
}

pub fn large(rng: &mut Rng) -> Vec<Case> {
    let mut cases = by_hand();
    cases.extend((0..20).map(|_| random(rng)));
    cases
}

pub fn most(_: &mut Rng) -> Vec<Case> {
    let mut cases = most_entries();
    cases.extend(occurrences());
    cases
}
