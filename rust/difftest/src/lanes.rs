//! Vaults for the walk of the trie: keywords whose links are long, chunks that follow them, and chunk lengths and places at which a
//! library parts its work. The proved one walks a chunk of [`PARTED`] bytes or more in four lanes, each over a quarter (the last also
//! over the 0 to 3 bytes left), and starts a lane from the [`BEFORE`] bytes before it.

use crate::holes;
use crate::inputs::{self, Case, Words};
use crate::rng::Rng;
use oracle::keywords::{alike, compares_as, Keywords};
use oracle::{recipes, Fingerprint};

const PARTED: usize = 256;
const BEFORE: usize = 32;

/// The places of a chunk at which something begins: its quarters, its end, and where the lanes start reading.
pub fn borders(length: usize) -> Vec<usize> {
    let quarter = length / 4;
    let lanes = (1..=4).map(|lane| lane * quarter);
    let before = (1..=3).map(|lane| (lane * quarter).saturating_sub(BEFORE));
    lanes.chain(before).chain([length]).collect()
}

/// Puts a piece so that it ends before that place of the data, if it lies within it.
pub fn put(data: &mut [u8], piece: &[u8], end: usize) {
    if piece.len() <= end && end <= data.len() {
        data[end - piece.len()..end].copy_from_slice(piece);
    }
}

/// 32 letters of two kinds: periodic, periodic with a change, Fibonacci's word, or any.
fn text(rng: &mut Rng, a: u8, b: u8) -> Vec<u8> {
    let mut any = |n: usize| -> Vec<u8> { (0..n).map(|_| if rng.percent(60) { a } else { b }).collect() };
    let mut text: Vec<u8> = any(4).iter().copied().cycle().take(32).collect();
    let random = any(32);
    match rng.below(5) {
        0 => text = text[..rng.range(1, 3)].iter().copied().cycle().take(32).collect(),
        1 => (),
        2 => text[rng.below(32)] ^= a ^ b,
        3 => {
            let (mut shorter, mut longer) = (vec![a], vec![a, b]);
            while longer.len() < 32 {
                let next = [&longer[..], &shorter].concat();
                shorter = std::mem::replace(&mut longer, next);
            }
            longer.truncate(32);
            text = longer;
        }
        _ => text = random,
    }
    text
}

/// 1 to 32, the ends often.
fn piece_length(rng: &mut Rng) -> usize {
    match rng.below(6) {
        0 => 32,
        1 => 31,
        2 => rng.range(1, 4),
        _ => rng.range(1, 32),
    }
}

/// Up to 16 keywords that share beginnings and endings: a^k b, a^k, and beginnings, endings and pieces of one text.
fn words(rng: &mut Rng) -> Words {
    let (a, b) = *rng.pick(&[(b'a', b'b'), (b'B', b'a'), (b'Z', b'A'), (0x40, 0x60), (0x5B, 0x7B), (0x00, 0xFF), (0xC9, 0xE9)]);
    let fold = rng.percent(50);
    let (family, text) = (rng.below(7), text(rng, a, b));
    let count = *rng.pick(&[1, 1, 2, 3, 4, 8, 15, 16, 16]);
    let mut words: Vec<Vec<u8>> = Vec::new();
    for k in 0..4 * count {
        let n = piece_length(rng);
        let from = rng.below(33 - n);
        let run = |k: usize| vec![a; k.min(31)];
        let word = match family {
            // a^16 b, a^17 b, .. in this order, or any of them.
            0 => [run(16 + k), vec![b]].concat(),
            1 => [run(n - 1), vec![b]].concat(),
            2 => vec![a; n],
            3 => text[..n].to_vec(),
            4 => text[32 - n..].to_vec(),
            5 => text[from..from + n].to_vec(),
            _ => match rng.below(3) {
                0 => [run(n - 1), vec![b]].concat(),
                1 => [vec![b], run(n - 1)].concat(),
                _ => vec![a; n],
            },
        };
        if words.len() < count && !words.iter().any(|w| alike(fold, w, &word)) {
            words.push(word);
        }
    }
    let size = 2 + words.iter().map(|w| 1 + w.len()).sum::<usize>();
    Words { letters: vec![a, a, b, b'.'], keywords: Keywords { fold, words, size } }
}

/// Lengths around the first that is parted and around 1,024, multiples of 4 and 1 to 3 more, and short ones.
fn length(rng: &mut Rng) -> usize {
    match rng.below(12) {
        0..=1 => rng.range(PARTED - 1, PARTED + 1),
        2..=3 => rng.range(1023, 1025),
        4 => rng.range(PARTED - 4, PARTED + 7),
        5..=8 => 4 * rng.range(PARTED / 4, 300) + rng.below(4),
        9 => 4 * 2048 - 2 + rng.below(6),
        _ => rng.range(1, PARTED + 40),
    }
}

/// Bytes changed here and there.
fn dent(rng: &mut Rng, data: &mut [u8], letters: &[u8]) {
    for _ in 0..rng.range(1, 1 + data.len() / 40) {
        data[rng.below(data.len())] = *rng.pick(letters);
    }
}

/// Keywords and beginnings of keywords that end around each border, before or behind it.
fn at_borders(rng: &mut Rng, words: &Words, data: &mut [u8]) {
    for border in borders(data.len()) {
        if rng.percent(25) {
            continue;
        }
        let word = rng.pick(&words.keywords.words);
        let n = word.len();
        let end = match rng.below(6) {
            0 => border,
            1 => border + 1,
            2 => border + n,
            3 => border + n - 1,
            4 => (border + n + 1).saturating_sub(rng.below(3)),
            _ => border + rng.below(n + 1),
        };
        let piece = if rng.percent(70) { word } else { &word[..rng.range(1, n)] };
        put(data, piece, end);
    }
}

/// A chunk: a run or a near-run of a letter or of a keyword, any letters, or keywords around the borders.
fn chunk(rng: &mut Rng, words: &Words, length: usize) -> Vec<u8> {
    let word = rng.pick(&words.keywords.words).clone();
    let phase = rng.below(word.len());
    let mut data = match rng.below(4) {
        0 => vec![word[0]; length],
        1 => word.iter().copied().cycle().skip(phase).take(length).collect(),
        2 => (0..length).map(|_| *rng.pick(&words.letters)).collect(),
        _ => vec![b'.'; length],
    };
    if rng.percent(50) {
        dent(rng, &mut data, &words.letters);
    }
    if rng.percent(60) {
        at_borders(rng, words, &mut data);
    }
    if words.keywords.fold {
        let letter = |b: u8| compares_as(true, b) == compares_as(true, b ^ 0x20);
        data.iter_mut().filter(|b| letter(**b)).for_each(|b| *b ^= if rng.percent(40) { 0x20 } else { 0 });
    }
    data
}

/// A vault of a few such chunks.
pub fn vault(rng: &mut Rng) -> Case {
    let words = words(rng);
    let count = rng.range(1, 5);
    let keys = inputs::keys(rng, count);
    let chunks: Vec<(Fingerprint, Vec<u8>)> = keys
        .iter()
        .map(|key| {
            let length = length(rng);
            (*key, chunk(rng, &words, length))
        })
        .collect();
    Case {
        kind: "moves and lanes",
        list: words.list(),
        store: holes::store(rng, Some(&words.keywords), &chunks),
        index: None,
        recipes: recipes::encode(&inputs::files(rng, &keys)),
        keys: inputs::lookups(rng, &keys),
        queries: vec![],
        lents: vec![],
    }
}
