//! Random inputs: keywords that overlap and nest, chunks made of their pieces, recipes, made-up records.

use crate::clients::Lent;
use crate::folds::beside;
use crate::holes;
use crate::rng::Rng;
use oracle::form::{Form, KNOWN};
use oracle::keywords::{alike, Keywords};
use oracle::records::{encode_body, inner_starts, reach, set_of, Record};
use oracle::store::Chunk;
use oracle::{index, keywords, recipes, store, Fingerprint};

/// What one case is about. `index` is what the join reads; without it, what the scan writes.
#[derive(Clone, PartialEq)]
pub struct Case {
    pub kind: &'static str,
    pub list: Vec<u8>,
    pub store: Vec<u8>,
    pub index: Option<Vec<u8>>,
    pub recipes: Vec<u8>,
    /// Fingerprints to look up.
    pub keys: Vec<Vec<u8>>,
    /// Queries to ask beside random ones.
    pub queries: Vec<Vec<u8>>,
    /// Keys and tallies to join with beside random ones.
    pub lents: Vec<Lent>,
}

impl Case {
    /// The chunks, where the join reads what the scan writes, and where the store is accepted and isn't large.
    pub fn movable(&self) -> Option<Vec<Chunk>> {
        let usual = self.index.is_none() && self.store.len() <= 1 << 22;
        usual.then(|| store::read(&self.store).ok())?
    }
}

/// The case with its store's chunks in another order: reversed, rotated, or any; and with other holes. It wants two chunks or more.
pub fn shuffled(rng: &mut Rng, case: &Case) -> Option<Case> {
    let chunks = case.movable().filter(|chunks| chunks.len() > 1)?;
    let mut moved: Vec<(Fingerprint, &[u8])> = chunks.iter().map(|c| (c.key, &case.store[c.place.clone()])).collect();
    match rng.below(4) {
        0 => moved.reverse(),
        1 => {
            let by = rng.range(1, moved.len() - 1);
            moved.rotate_left(by);
        }
        _ => {
            for k in (1..moved.len()).rev() {
                let to = rng.below(k + 1);
                moved.swap(k, to);
            }
        }
    }
    let store = holes::store(rng, keywords::read(&case.list).ok().as_ref(), &moved);
    Some(changed("stores in another order", case, store, &chunks))
}

/// The case with another store, which has the same chunks: also with fingerprints of theirs to look up, fewer where each takes long.
pub fn changed(kind: &'static str, case: &Case, store: Vec<u8>, chunks: &[Chunk]) -> Case {
    let more = if chunks.len() > 1_000 { 2 } else { 24 };
    let keys = case.keys.iter().cloned().chain(chunks.iter().take(more).map(|c| c.key.to_vec())).collect();
    Case { kind, store, keys, ..case.clone() }
}

/// Keywords, and the letters that keywords and chunks are made of.
pub struct Words {
    pub letters: Vec<u8>,
    pub keywords: Keywords,
}

impl Words {
    pub fn list(&self) -> Vec<u8> {
        self.keywords.encode()
    }
}

/// Small alphabets, the fold's borders (`folds.rs` has vaults of these alone), the ends of a byte, and all bytes.
fn letters(rng: &mut Rng) -> Vec<u8> {
    let sets: [&[u8]; 10] = [
        b"A",
        b"AB",
        b"ab",
        b"aAbB",
        b"ABC",
        &[0x40, 0x41, 0x5A, 0x5B, 0x60, 0x61, 0x7A, 0x7B],
        &[0x3F, 0x40, 0x41, 0x42, 0x61],
        &[0x00, 0xFF],
        &[0xC0, 0xE0, 0xD7, 0xF7],
        &[],
    ];
    let set = *rng.pick(&sets);
    if set.is_empty() {
        (0..=255).collect()
    } else {
        set.to_vec()
    }
}

fn word_length(rng: &mut Rng) -> usize {
    match rng.below(18) {
        0..=2 => 1,
        3..=6 => 2,
        7..=9 => 3,
        10..=11 => 4,
        12..=13 => 5,
        14..=15 => rng.range(6, 12),
        16 => rng.range(30, 32),
        _ => 32,
    }
}

fn flip_case(rng: &mut Rng, bytes: &mut [u8]) {
    for b in bytes {
        if rng.percent(40) {
            *b = beside(rng, *b);
        }
    }
}

/// A keyword: random, periodic, part of an earlier one, an earlier one made longer, or in another case.
fn word(rng: &mut Rng, letters: &[u8], earlier: &[Vec<u8>]) -> Vec<u8> {
    let n = word_length(rng);
    let random = |rng: &mut Rng, n: usize| -> Vec<u8> { (0..n).map(|_| *rng.pick(letters)).collect() };
    if earlier.is_empty() || rng.percent(45) {
        if rng.percent(50) {
            let most = n.min(4);
            let period = rng.range(1, most);
            let root = random(rng, period);
            return root.iter().copied().cycle().take(n).collect();
        }
        return random(rng, n);
    }
    let mut made = rng.pick(earlier).clone();
    match rng.below(5) {
        0 => made.truncate(n),
        1 => made = made[made.len().saturating_sub(n)..].to_vec(),
        2 => {
            let at = rng.below(made.len());
            made = made[at..].to_vec();
            made.truncate(n);
        }
        3 => {
            let more = rng.range(1, 3);
            made.extend(random(rng, more));
        }
        _ => flip_case(rng, &mut made),
    }
    made.truncate(32);
    made
}

pub fn words(rng: &mut Rng) -> Words {
    let letters = letters(rng);
    words_of(rng, letters)
}

/// Keywords of these letters.
pub fn words_of(rng: &mut Rng, letters: Vec<u8>) -> Words {
    let fold = rng.percent(45);
    let count = match rng.below(10) {
        0..=2 => 1,
        3..=4 => 2,
        5..=6 => rng.range(3, 5),
        7 => rng.range(6, 15),
        _ => 16,
    };
    let mut words: Vec<Vec<u8>> = Vec::new();
    for _ in 0..8 * count {
        let next = word(rng, &letters, &words);
        if words.len() < count && !words.iter().any(|w| alike(fold, w, &next)) {
            words.push(next);
        }
    }
    let size = 2 + words.iter().map(|w| 1 + w.len()).sum::<usize>();
    Words { letters, keywords: Keywords { fold, words, size } }
}

/// A chunk of letters, keywords and pieces of keywords.
pub fn chunk(rng: &mut Rng, words: &Words, length: usize) -> Vec<u8> {
    let mut bytes = Vec::new();
    while bytes.len() < length {
        let word = rng.pick(&words.keywords.words);
        let cut = rng.below(word.len() + 1);
        let mut piece = match rng.below(5) {
            0 => vec![*rng.pick(&words.letters)],
            1 => word[..cut].to_vec(),
            2 => word[cut..].to_vec(),
            3 => word.clone(),
            _ => vec![word[0]; rng.range(1, 6)],
        };
        if words.keywords.fold || rng.percent(20) {
            flip_case(rng, &mut piece);
        }
        bytes.extend(piece);
    }
    // Either end may be in the middle of a keyword.
    if rng.percent(50) {
        bytes.truncate(length);
        bytes
    } else {
        bytes[bytes.len() - length..].to_vec()
    }
}

/// Different fingerprints: random, plain, or near twins that differ in one byte only.
pub fn keys(rng: &mut Rng, count: usize) -> Vec<Fingerprint> {
    let mut base = [0; 20];
    base.copy_from_slice(&rng.bytes(20));
    let at = *rng.pick(&[0, 1, 7, 10, 18, 19]);
    let how = rng.below(4);
    let mut keys: Vec<Fingerprint> = Vec::new();
    while keys.len() < count {
        let k = keys.len();
        let mut key = base;
        match how {
            0 => key.copy_from_slice(&rng.bytes(20)),
            1 => key = [k as u8 + 1; 20],
            2 => key[at] = key[at].wrapping_add(k as u8),
            // The same bytes in another order.
            _ => key.rotate_left(k % 20),
        }
        if keys.contains(&key) || k >= 200 {
            key.copy_from_slice(&rng.bytes(20));
        }
        if !keys.contains(&key) {
            keys.push(key);
        }
    }
    keys
}

/// Chunk lengths: around the length that refusal 17 asks for, or any.
fn chunk_length(rng: &mut Rng, due: usize, how: usize) -> usize {
    match how {
        0 => rng.range(due.max(1), due.max(1) + 6),
        1 => rng.range(due.saturating_sub(1).max(1), due.max(1) + 2),
        2 => rng.range(1, 4),
        _ => rng.range(1, 40),
    }
}

/// Recipes over these fingerprints: empty files, repeats, one chunk alone, all in order; sometimes an unknown one.
pub fn files(rng: &mut Rng, keys: &[Fingerprint]) -> Vec<Vec<Fingerprint>> {
    let count = *rng.pick(&[0, 1, 1, 2, 3, 4, 6, 9]);
    let mut files = Vec::new();
    for _ in 0..count {
        let mut file = Vec::new();
        if !keys.is_empty() {
            match rng.below(8) {
                0 => (),
                1 => file = keys.to_vec(),
                2 => file = vec![*rng.pick(keys); rng.range(1, 6)],
                3 => file = (0..2).map(|_| *rng.pick(keys)).collect(),
                4 => file.push(*rng.pick(keys)),
                _ => file = (0..rng.range(1, 12)).map(|_| *rng.pick(keys)).collect(),
            }
        }
        if rng.percent(2) {
            let mut unknown = [0; 20];
            unknown.copy_from_slice(&rng.bytes(20));
            let at = rng.below(file.len() + 1);
            file.insert(at, unknown);
        }
        files.push(file);
    }
    files
}

/// Fingerprints to look up: some that are there, near misses, wrong lengths.
pub fn lookups(rng: &mut Rng, keys: &[Fingerprint]) -> Vec<Vec<u8>> {
    let mut lookups = vec![rng.bytes(20)];
    if !keys.is_empty() {
        lookups.push(rng.pick(keys).to_vec());
        lookups.push(keys[keys.len() - 1].to_vec());
        let mut near = rng.pick(keys).to_vec();
        near[*rng.pick(&[0, 10, 19])] ^= 1;
        lookups.push(near);
    }
    if rng.percent(50) {
        let length = *rng.pick(&[0, 1, 19, 21, 40]);
        let mut wrong = rng.pick(&lookups).clone();
        wrong.resize(length, 0);
        lookups.push(wrong);
    }
    lookups
}

/// A whole vault that every check accepts; its recipes may still be refused.
pub fn vault(rng: &mut Rng, kind: &'static str) -> (Case, Words, Vec<Fingerprint>) {
    let words = words(rng);
    vault_of(rng, kind, words)
}

/// The same for these keywords.
pub fn vault_of(rng: &mut Rng, kind: &'static str, words: Words) -> (Case, Words, Vec<Fingerprint>) {
    let due = words.keywords.longest() - 1;
    let count = *rng.pick(&[0, 1, 2, 3, 4, 5, 6, 8, 12, 20]);
    let keys = keys(rng, count);
    let how = rng.below(4);
    let mut chunks: Vec<(Fingerprint, Vec<u8>)> = Vec::new();
    for key in &keys {
        let length = chunk_length(rng, due, how);
        let bytes = match chunks.last() {
            Some((_, twin)) if rng.percent(5) => twin.clone(),
            _ => chunk(rng, &words, length),
        };
        chunks.push((*key, bytes));
    }
    let files = files(rng, &keys);
    let case = Case {
        kind,
        list: words.list(),
        store: holes::store(rng, Some(&words.keywords), &chunks),
        index: None,
        recipes: recipes::encode(&files),
        keys: lookups(rng, &keys),
        queries: vec![],
        lents: vec![],
    };
    (case, words, keys)
}

/// A record that keeps the ranges, whether or not some chunk gives it.
pub fn record(rng: &mut Rng, n: usize, size: usize) -> Record {
    let most = reach(n, size);
    let length = |rng: &mut Rng| match rng.below(4) {
        0 => 0,
        1 => most.min(1),
        2 => most,
        _ => rng.range(0, most),
    };
    let (prefix, suffix) = (length(rng), length(rng));
    let places = (size + 1).saturating_sub(n);
    let count = match rng.below(12) {
        0..=4 => 0,
        5..=6 => 1,
        7..=9 => rng.range(2, 5),
        10 => rng.range(253, 257),
        _ => places,
    };
    let mut offsets: Vec<usize> = if count >= places { (0..places).collect() } else { Vec::new() };
    while offsets.len() < count.min(places) {
        let at = rng.below(places);
        if let Err(gap) = offsets.binary_search(&at) {
            offsets.insert(gap, at);
        }
    }
    Record { prefix, suffix, offsets, inner: set(rng, n, size) }
}

/// A set of inner starts in range, whether or not some chunk gives it: empty, one, all, or any.
pub fn set(rng: &mut Rng, n: usize, size: usize) -> u32 {
    let all = set_of(inner_starts(n, size));
    match rng.below(6) {
        0..=1 => 0,
        2 => all & (1 << rng.below(32)),
        3 => all,
        _ => all & rng.next() as u32,
    }
}

/// An index that no store gave: what an entry says of each fingerprint, L and the body.
pub struct MadeUp {
    pub case: Case,
    pub form: Form,
    pub entries: Vec<Entry>,
}

type Entry = (Fingerprint, u64, Vec<u8>);

impl MadeUp {
    /// The case, with an index of the entries as they are now.
    pub fn case(mut self) -> Case {
        self.case.index = Some(index::encode(&self.form, &self.case.list, &self.entries));
        self.case
    }
}

/// What a scan of the case's store writes, or wrote under an older mark, if it does its work.
pub fn scanned(rng: &mut Rng, case: &Case) -> Option<Vec<u8>> {
    scanned_in(rng.pick(&KNOWN), case)
}

/// The same in that form.
pub fn scanned_in(form: &Form, case: &Case) -> Option<Vec<u8>> {
    let (keywords, chunks) = (keywords::read(&case.list).ok()?, store::read(&case.store).ok()?);
    Some(index::of_scan(form, &case.list, &keywords, &case.store, &chunks))
}

/// Bodies of made-up records.
fn bodies(rng: &mut Rng, form: &Form, words: &Keywords, keys: &[Fingerprint]) -> Vec<Entry> {
    let due = words.longest() - 1;
    let how = rng.below(5);
    let mut entries = Vec::new();
    for key in keys {
        let size = match how {
            4 => *rng.pick(&[255, 260, 300, 600, form.longest_chunk as usize]),
            how => chunk_length(rng, due, how),
        };
        let few = rng.percent(30);
        let records: Vec<Record> = words
            .words
            .iter()
            .map(|w| if few && rng.percent(80) { Record::default() } else { record(rng, w.len(), size) })
            .map(|r| if size > 1000 && r.offsets.len() > 1000 { Record { offsets: vec![], ..r } } else { r })
            .collect();
        entries.push((*key, size as u64, encode_body(form, &records)));
    }
    entries
}

/// Made-up records, and recipes over them.
pub fn made_up(rng: &mut Rng, kind: &'static str) -> MadeUp {
    let (mut case, words, _) = vault(rng, kind);
    let form = *rng.pick(&KNOWN);
    let count = rng.range(1, 6);
    let keys = keys(rng, count);
    let entries = bodies(rng, &form, &words.keywords, &keys);
    case.recipes = recipes::encode(&files(rng, &keys));
    case.keys = lookups(rng, &keys);
    MadeUp { case, form, entries }
}

/// A list of these keywords.
pub fn list(fold: bool, words: &[&[u8]]) -> Vec<u8> {
    keywords::list_of(fold, words)
}
