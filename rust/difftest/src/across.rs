//! Keywords over three chunks or more (request 108): files of chunks that are shorter than the keywords, sets of inner starts that chunks give
//! and that none gives, sets that are not good, and 17, which stands under the older marks alone.

use crate::fixed::{case, key, small_chunks, written, Chunks};
use crate::inputs::{self, list, Case, Words};
use crate::reached::Reached;
use crate::rng::Rng;
use crate::{holes, windows};
use oracle::form::{Form, FORM1, FORM2, FORM3, KNOWN};
use oracle::index::{self, Index};
use oracle::join::{Joined, Trial};
use oracle::keywords::{alike, Keywords};
use oracle::records::{encode_body, inner_starts, record_of, set_of, Record};
use oracle::{recipes, Fingerprint};

const ALONE: &str = "a set without another record";
const TINY: &str = "a set behind a tiny record";
const FULL: &str = "a set behind a full record";
const GIVEN_BY_NONE: &str = "a set that no chunk gives";
const THREE: &str = "a keyword over three chunks or more";
const THIRTY_TWO: &str = "a keyword over 32 chunks";
const PART_OF_PREFIX: &str = "one with a part of the first chunk's prefix";
const PART_OF_SUFFIX: &str = "one with a part of the last chunk's suffix";
const NO_FRONT: &str = "bytes that don't end the prefix";
const NO_BIT: &str = "a chunk between without the bit";
const NO_REST: &str = "bytes left that don't begin the suffix";
const FILE_ENDS: &str = "a file that ends inside a keyword";
const NEXT_FILE: &str = "one that the next file would go on with";
const SPARED: &str = "a file that only the older marks refuse with 17";
const OLDEST_17: &str = "17 under DM1";
const OLDER_17: &str = "17 under DM2";

/// What joins have to come upon.
pub const ALL: [&str; 16] = [
    ALONE,
    TINY,
    FULL,
    GIVEN_BY_NONE,
    THREE,
    THIRTY_TWO,
    PART_OF_PREFIX,
    PART_OF_SUFFIX,
    NO_FRONT,
    NO_BIT,
    NO_REST,
    FILE_ENDS,
    NEXT_FILE,
    SPARED,
    OLDEST_17,
    OLDER_17,
];

/// Joins of more places are not looked into.
const MOST_PLACES: usize = 2_000;

/// What the join of an index comes upon.
pub fn count(reached: &mut Reached, index: &[u8], joined: &Result<Joined, u8>) {
    for (form, what) in [(FORM1, OLDEST_17), (FORM2, OLDER_17)] {
        reached.count(what, index.starts_with(&form.mark) && joined.as_ref().is_err_and(|code| *code == 17));
    }
    let Ok(joined) = joined else { return };
    if joined.index.form.sets && joined.files.iter().map(Vec::len).sum::<usize>() <= MOST_PLACES {
        reached.sets(joined.index);
        (0..joined.files.len()).for_each(|file| reached.file(joined, file));
    }
}

impl Reached {
    /// The sets of an index.
    fn sets(&mut self, index: &Index) {
        let Keywords { fold, words, .. } = &index.keywords;
        for entry in &index.entries {
            for (word, record) in words.iter().zip(&entry.records).filter(|(_, record)| record.inner != 0) {
                self.count(ALONE, record.is_empty());
                self.count(TINY, record.is_tiny());
                self.count(FULL, !record.is_empty() && !record.is_tiny());
                // The chunk that the first start asks for gives the whole set, or none does.
                let start = record.inner.trailing_zeros() as usize;
                let chunk = &word[start..start + entry.size as usize];
                self.count(GIVEN_BY_NONE, record_of(*fold, word, chunk).inner != record.inner);
            }
        }
    }

    /// Every start that a join tries in one file.
    fn file(&mut self, joined: &Joined, file: usize) {
        let (index, places) = (joined.index, &joined.files[file]);
        let due = index.keywords.longest() as u64 - 1;
        self.count(SPARED, places.windows(3).any(|three| index.entries[three[1]].size < due));
        for p in 0..places.len() {
            for k in 0..index.keywords.words.len() {
                let prefix = index.entries[places[p]].records[k].prefix;
                (1..=prefix).for_each(|a| self.trial(joined, file, &places[p..], (k, a)));
            }
        }
    }

    /// Keyword k with a bytes in the first of a file's places.
    fn trial(&mut self, joined: &Joined, file: usize, places: &[usize], (k, a): (usize, usize)) {
        let trial = joined.trial(k, a, places);
        self.count(NO_FRONT, trial == Trial::NoFront);
        self.count(NO_BIT, trial == Trial::NoBit);
        self.count(NO_REST, trial == Trial::NoRest);
        self.count(FILE_ENDS, trial == Trial::FileEnds);
        match trial {
            Trial::Whole(chunks) if chunks > 2 => {
                let (entries, n) = (&joined.index.entries, joined.index.keywords.words[k].len());
                let between: usize = places[1..chunks - 1].iter().map(|e| entries[*e].size as usize).sum();
                self.count(THREE, true);
                self.count(THIRTY_TWO, chunks == 32);
                self.count(PART_OF_PREFIX, a < entries[places[0]].records[k].prefix);
                self.count(PART_OF_SUFFIX, n - a - between < entries[places[chunks - 1]].records[k].suffix);
            }
            Trial::FileEnds => {
                let behind = joined.files[file + 1..].iter().flatten().take(32);
                let on: Vec<usize> = places.iter().chain(behind).copied().collect();
                self.count(NEXT_FILE, matches!(joined.trial(k, a, &on), Trial::Whole(_)));
            }
            _ => (),
        }
    }
}

/// Keywords over chunks: the chunks of a store, and recipes.
struct Vault {
    words: Words,
    chunks: Chunks,
    files: Vec<Vec<Fingerprint>>,
}

impl Vault {
    fn random(rng: &mut Rng) -> Vault {
        let words = windows::random_words(rng);
        let count = rng.range(2, 9);
        let keys = inputs::keys(rng, count);
        let chunks: Chunks = keys.iter().map(|key| (*key, chunk(rng, &words))).collect();
        let files = files(rng, &words.keywords, &chunks);
        Vault { words, chunks, files }
    }

    fn case(&self, rng: &mut Rng, kind: &'static str) -> Case {
        let keys: Vec<Fingerprint> = self.chunks.iter().map(|(key, _)| *key).collect();
        Case {
            kind,
            list: self.words.list(),
            store: holes::store(rng, Some(&self.words.keywords), &self.chunks),
            index: None,
            recipes: recipes::encode(&self.files),
            keys: inputs::lookups(rng, &keys),
            queries: vec![],
            lents: vec![],
        }
    }

    /// Records of each chunk, some true and some made up.
    fn records(&self, rng: &mut Rng) -> Vec<Vec<Record>> {
        let keywords = &self.words.keywords;
        let mut of = |chunk: &[u8]| -> Vec<Record> {
            let mut record = |word: &Vec<u8>| {
                let real = record_of(keywords.fold, word, chunk);
                match rng.below(4) {
                    0 => real,
                    1 => Record { inner: inputs::set(rng, word.len(), chunk.len()), ..real },
                    2 => Record { inner: set_of(inner_starts(word.len(), chunk.len())), ..real },
                    _ => inputs::record(rng, word.len(), chunk.len()),
                }
            };
            keywords.words.iter().map(&mut record).collect()
        };
        self.chunks.iter().map(|(_, chunk)| of(chunk)).collect()
    }

    /// The chunks' lengths.
    fn lengths(&self) -> Vec<usize> {
        self.chunks.iter().map(|(_, chunk)| chunk.len()).collect()
    }

    /// An index of chunks of these lengths, with these bodies, whether or not they are good.
    fn index(&self, form: &Form, lengths: &[usize], bodies: &[Vec<u8>]) -> Vec<u8> {
        let parts = self.chunks.iter().zip(lengths).zip(bodies);
        let entries: Vec<_> = parts.map(|(((key, _), length), body)| (*key, *length as u64, body)).collect();
        index::encode(form, &self.words.list(), &entries)
    }
}

/// A piece of a keyword or some letters: mostly 1 to 4 bytes, so that many keywords are longer.
fn chunk(rng: &mut Rng, words: &Words) -> Vec<u8> {
    let word = rng.pick(&words.keywords.words).clone();
    let n = word.len();
    let length = match rng.below(10) {
        0..=3 => 1,
        4..=7 => rng.range(1, 4),
        8 => rng.range(n.saturating_sub(2).max(1), n + 1),
        _ => rng.range(1, 40),
    };
    match rng.below(5) {
        0 => (0..length).map(|_| *rng.pick(&words.letters[..2])).collect(),
        1 => (0..length).map(|_| *rng.pick(&words.letters)).collect(),
        _ => word.iter().copied().cycle().skip(rng.below(n)).take(length).collect(),
    }
}

/// Files that spell keywords, in some the next file goes on where the one before ends, with an empty one between or none.
fn files(rng: &mut Rng, keywords: &Keywords, chunks: &Chunks) -> Vec<Vec<Fingerprint>> {
    let mut files = Vec::new();
    for _ in 0..rng.range(1, 5) {
        let mut file = spelled(rng, keywords, chunks);
        if rng.percent(40) {
            let rest = file.split_off(rng.below(file.len() + 1));
            files.push(file);
            if rng.percent(30) {
                files.push(vec![]);
            }
            file = rest;
        }
        files.push(file);
    }
    files
}

/// Chunks one after the other that go on with a keyword as long as there are any, each keyword from its front or from the chunk before.
fn spelled(rng: &mut Rng, keywords: &Keywords, chunks: &Chunks) -> Vec<Fingerprint> {
    let mut file = Vec::new();
    for _ in 0..rng.range(1, 4) {
        let word = rng.pick(&keywords.words);
        let (first, chunk) = rng.pick(chunks);
        let mut at = record_of(keywords.fold, word, chunk).prefix;
        file.push(*first);
        while at < word.len() {
            let goes_on = |chunk: &[u8]| {
                let length = chunk.len().min(word.len() - at);
                alike(keywords.fold, &chunk[..length], &word[at..at + length])
            };
            let fitting: Vec<_> = chunks.iter().filter(|(_, chunk)| goes_on(chunk)).collect();
            if fitting.is_empty() || rng.percent(2) {
                break;
            }
            let (key, chunk) = rng.pick(&fitting);
            file.push(*key);
            at += chunk.len();
        }
        if rng.percent(30) {
            file.push(rng.pick(chunks).0);
        }
    }
    if rng.percent(20) {
        file = vec![rng.pick(chunks).0; rng.range(3, 70)];
    }
    file
}

pub fn random(rng: &mut Rng) -> Case {
    let vault = Vault::random(rng);
    match rng.below(24) {
        0..=8 => vault.case(rng, "small chunks"),
        9..=13 => {
            let case = vault.case(rng, "small chunks, an index of each mark");
            Case { index: inputs::scanned(rng, &case), ..case }
        }
        14..=18 => {
            let form = *rng.pick(&[FORM1, FORM2, FORM3, FORM3, FORM3, FORM3]);
            let bodies: Vec<Vec<u8>> = vault.records(rng).iter().map(|records| encode_body(&form, records)).collect();
            Case { index: Some(vault.index(&form, &vault.lengths(), &bodies)), ..vault.case(rng, "small chunks, made-up sets") }
        }
        _ => damaged(rng, &vault),
    }
}

/// A body around one set: what stands before its keyword's records, these, the set's bits, and what stands behind.
struct Around {
    keyword: u8,
    /// The keyword's length and the chunk's.
    n: usize,
    size: usize,
    before: Vec<u8>,
    record: Vec<u8>,
    set: u32,
    behind: Vec<u8>,
}

impl Around {
    /// The body of these records around keyword k's.
    fn new(records: &[Record], k: usize, n: usize, size: usize) -> Around {
        let of = |from: usize, to: usize| (from..to).flat_map(|w| records[w].encode(&FORM3, w)).collect::<Vec<u8>>();
        let record = Record { inner: 0, ..records[k].clone() }.encode(&FORM3, k);
        Around { keyword: k as u8, n, size, before: of(0, k), record, set: records[k].inner, behind: of(k + 1, records.len()) }
    }

    fn bits(&self, keyword: u8, set: u32) -> Vec<u8> {
        [&[keyword, 4][..], &set.to_le_bytes()].concat()
    }

    /// The body with these bytes in the place of the keyword's record and set.
    fn with(&self, middle: &[&[u8]]) -> Vec<u8> {
        [&self.before[..], &middle.concat(), &self.behind].concat()
    }

    /// The same with other bits.
    fn with_set(&self, set: u32) -> Vec<u8> {
        self.with(&[&self.record, &self.bits(self.keyword, set)])
    }
}

type Spoil = fn(&mut Rng, &Around) -> Vec<u8>;

/// What makes a body not good, by its set alone.
const FAULTS: [(&str, Spoil); 12] = [
    ("sets: start 0", |_, a| a.with_set(a.set | 1)),
    ("sets: start n - L", |_, a| a.with_set(a.set | (1 << (a.n - a.size)))),
    ("sets: start 31", |_, a| a.with_set(a.set | (1 << 31))),
    ("sets: any start out of range", |rng, a| {
        let out = !set_of(inner_starts(a.n, a.size));
        let only = if rng.percent(50) { 0 } else { a.set };
        a.with_set(only | (out & rng.next() as u32).max(1))
    }),
    ("sets: an empty one", |_, a| a.with_set(0)),
    ("sets: a second one", |rng, a| {
        let more = if rng.percent(50) { a.set } else { 2 };
        a.with(&[&a.record, &a.bits(a.keyword, a.set), &a.bits(a.keyword, more)])
    }),
    ("sets: before the record", |_, a| {
        let tiny = [a.keyword, 0, 1];
        a.with(&[&a.bits(a.keyword, a.set), if a.record.is_empty() { &tiny } else { &a.record }])
    }),
    ("sets: behind the next keyword's record", |_, a| {
        let tiny = [a.keyword + 1, 0, 1];
        [&a.before[..], &a.record, if a.behind.is_empty() { &tiny } else { &a.behind }, &a.bits(a.keyword, a.set)].concat()
    }),
    ("sets: cut", |rng, a| {
        let bits = a.bits(a.keyword, a.set);
        [&a.before[..], &a.record, &bits[..rng.range(1, 5)]].concat()
    }),
    ("sets: a byte more", |_, a| [a.with_set(a.set), vec![0]].concat()),
    ("sets: of another kind", |rng, a| {
        let mut bits = a.bits(a.keyword, a.set);
        bits[1] = *rng.pick(&[0, 1, 2, 3, 5, 6, 255]);
        a.with(&[&a.record, &bits])
    }),
    ("sets: of another keyword", |rng, a| a.with(&[&a.record, &a.bits(a.keyword.wrapping_add(rng.range(1, 16) as u8), a.set)])),
];

/// A made-up index in which one body has a fault in its set; or a good one under an older mark, or with the chunk's length n - 1 or more.
fn damaged(rng: &mut Rng, vault: &Vault) -> Case {
    let mut records = vault.records(rng);
    let words = &vault.words.keywords.words;
    let all = (0..records.len()).flat_map(|e| (0..words.len()).map(move |k| (e, k)));
    let short = |(e, k): &(usize, usize)| vault.chunks[*e].1.len() + 2 <= words[*k].len();
    let places: Vec<(usize, usize)> = all.filter(short).collect();
    let Some((e, k)) = places.get(rng.below(places.len())).copied() else { return vault.case(rng, "small chunks") };
    let (n, size) = (words[k].len(), vault.chunks[e].1.len());
    records[e][k].inner |= 1 << *rng.pick(&inner_starts(n, size).collect::<Vec<_>>());
    let mut bodies: Vec<Vec<u8>> = records.iter().map(|records| encode_body(&FORM3, records)).collect();
    let around = Around::new(&records[e], k, n, size);
    let (kind, form, length) = match rng.below(FAULTS.len() + 3) {
        0 => ("sets: under an older mark", *rng.pick(&[FORM1, FORM2]), size),
        1 => ("sets: of a chunk of n - 1 bytes or more", FORM3, rng.range(n - 1, n + 1)),
        // A length that some starts are in range for and others aren't.
        2 => ("sets: of a longer chunk", FORM3, rng.range(size + 1, n)),
        which => {
            let (kind, spoil) = FAULTS[which - 3];
            bodies[e] = spoil(rng, &around);
            (kind, FORM3, size)
        }
    };
    let mut lengths = vault.lengths();
    lengths[e] = length;
    Case { index: Some(vault.index(&form, &lengths, &bodies)), ..vault.case(rng, kind) }
}

const KIND: &str = "keywords over many chunks, by hand";

/// The case as it is, and with the index that a scan writes under each mark.
pub fn under_each_mark(case: Case) -> impl Iterator<Item = Case> {
    let indexed = KNOWN.map(|form| Case { index: inputs::scanned_in(&form, &case), ..case.clone() });
    [case].into_iter().chain(indexed)
}

/// The small vault's files of three chunks and more, document 01's refused case among them.
fn papers() -> Vec<Case> {
    let (a, b, c) = ([1; 20], [2; 20], [3; 20]);
    let files = [vec![a, c, b], vec![c, c, c], vec![a, c, c, c, b], vec![c, a, c], vec![b, c, a, c, b, b]];
    let words: &[&[u8]] = &[b"ABA", b"AA"];
    files.into_iter().flat_map(|file| under_each_mark(case(KIND, list(false, words), &small_chunks(), &[file]))).collect()
}

/// Chunks of 1, 2, n - 2, n - 1, n and n + 1 bytes of a keyword that repeats itself: each alone, again and again, and between others.
fn lengths() -> Vec<Case> {
    let mut cases = Vec::new();
    for (n, period) in
        [1usize, 2, 3, 4, 5, 7, 32].into_iter().flat_map(|n| [&b"A"[..], b"AB", b"AAB", b"ABCD"].map(|period| (n, period)))
    {
        let text = |from: usize, length: usize| period.iter().copied().cycle().skip(from).take(length).collect::<Vec<u8>>();
        let mut lengths = vec![1, 2, n.saturating_sub(2).max(1), n.saturating_sub(1).max(1), n, n + 1];
        lengths.sort();
        lengths.dedup();
        let shapes: Vec<(usize, usize)> =
            (0..period.len()).flat_map(|from| lengths.iter().map(move |length| (from, *length))).collect();
        let chunks: Chunks = shapes.iter().enumerate().map(|(k, (from, length))| (key(k), text(*from, *length))).collect();
        let mut files: Vec<Vec<Fingerprint>> = chunks.iter().map(|(key, _)| vec![*key; n + 2]).collect();
        // Each chunk, and then the one that goes on where it ends, from each to each.
        let next = |k: usize, length: usize| {
            shapes.iter().position(|shape| *shape == ((shapes[k].0 + shapes[k].1) % period.len(), length))
        };
        for (k, length) in (0..shapes.len()).flat_map(|k| lengths.iter().map(move |length| (k, *length))) {
            let mut file = vec![k];
            (0..n.min(9)).for_each(|_| file.extend(next(file[file.len() - 1], length)));
            files.push(file.iter().map(|k| key(*k)).collect());
            file.reverse();
            files.push(file.iter().map(|k| key(*k)).collect());
        }
        let (word, other) = (text(0, n), text(1, n.max(2) - 1));
        let words: Vec<&[u8]> = if word == other { vec![&word] } else { vec![&word, &other] };
        cases.extend(under_each_mark(case(KIND, list(false, &words), &chunks, &files)));
    }
    cases
}

/// One keyword of 32 bytes, all different or all alike, over chunks of one byte: whole, with each chunk another one, without its ends, parted into
/// two files at each place, and with an empty file between.
fn letters() -> Vec<Case> {
    let mut cases = Vec::new();
    for (fold, word) in [(false, (0x30..0x50).collect::<Vec<u8>>()), (false, vec![b'A'; 32]), (true, (0xC9..0xE9).collect())] {
        let chunks: Chunks = (0..=255u8).map(|b| ([b; 20], vec![b])).collect();
        let whole: Vec<Fingerprint> = word.iter().map(|b| [*b; 20]).collect();
        let mut files = vec![whole.clone(), whole[1..].to_vec(), whole[..31].to_vec(), [&whole[..], &whole].concat()];
        for at in 0..32 {
            let mut other = whole.clone();
            other[at] = [word[at] ^ if at % 2 == 0 { 0x20 } else { 1 }; 20];
            files.extend([other, whole[..at].to_vec(), whole[at..].to_vec(), whole[..at].to_vec(), vec![], whole[at..].to_vec()]);
        }
        let words: Vec<&[u8]> = vec![&word, &word[3..30]];
        cases.extend(under_each_mark(case(KIND, list(fold, &words), &chunks, &files)));
    }
    cases
}

/// For the keywords ABAB, Q, AA and BAB.
const SETS: [&str; 34] = [
    "0 4 2 0 0 0",
    "0 4 4 0 0 0",
    "0 4 6 0 0 0",
    "0 4 0 0 0 0",
    "0 4 1 0 0 0",
    "0 4 3 0 0 0",
    "0 4 8 0 0 0",
    "0 4 10 0 0 0",
    "0 4 16 0 0 0",
    "0 4 2 1 0 0",
    "0 4 2 0 1 0",
    "0 4 2 0 0 1",
    "0 4 2 0 0 128",
    "0 0 1 0 4 2 0 0 0",
    "0 0 3 0 4 6 0 0 0",
    "0 0 3 0 4 0 0 0 0",
    "0 1 2 0 0 #0 0 4 2 0 0 0",
    "0 1 0 2 0 #0 0 4 4 0 0 0",
    "0 1 0 0 1 #0 0 4 2 0 0 0",
    "0 1 0 0 0 #0 0 4 2 0 0 0",
    "0 4 2 0 0 0 0 0 1",
    "0 4 2 0 0 0 0 4 4 0 0 0",
    "0 4 2 0 0 0 0 4 2 0 0 0",
    "0 0 1 0 4 2 0 0 0 0 4 4 0 0 0",
    "0 0 1 3 0 1 0 4 2 0 0 0",
    "0 0 1 0 4 2 0 0 0 2 0 1 3 0 2 3 4 2 0 0 0",
    "0 4 6 0 0 0 3 4 2 0 0 0",
    "3 4 2 0 0 0 0 4 2 0 0 0",
    "1 4 2 0 0 0",
    "2 4 2 0 0 0",
    "4 4 2 0 0 0",
    "0 4 2 0 0 0 <",
    "0 4",
    "0 5 2 0 0 0",
];

/// Bodies with sets that are good and almost good, for chunks of each length, under each mark.
fn sets() -> Vec<Case> {
    let words = list(false, &[b"ABAB", b"Q", b"AA", b"BAB"]);
    let mut cases = Vec::new();
    for (form, text, size) in
        KNOWN.iter().flat_map(|form| SETS.iter().flat_map(move |text| [1, 2, 3, 4, 10].map(|size| (form, text, size))))
    {
        let body = written(form, text);
        for entries in
            [[(key(1), size, &body[..]), (key(2), 1, b"\0\0\x01")], [(key(1), 2, b"\x02\0\x03"), (key(2), size, &body)]]
        {
            let files = [vec![key(1), key(2), key(1), key(1), key(2)], vec![key(2), key(2), key(2), key(2)]];
            let case = case("sets by hand", words.clone(), &small_chunks(), &files);
            cases.push(Case { index: Some(index::encode(form, &words, &entries)), ..case });
        }
    }
    cases
}

/// Two neighbours and three with every prefix, suffix and set that keep the ranges, whether or not some chunk gives them.
fn made_up() -> Vec<Case> {
    let mut cases = Vec::new();
    for (word, form) in [&b"ABAB"[..], b"AAA", b"ABA"].iter().flat_map(|word| KNOWN.map(|form| (word, form))) {
        let (n, words) = (word.len(), list(false, &[word]));
        let mut entries = Vec::new();
        for (size, prefix, suffix) in (1..=n).flat_map(|size| (0..n).flat_map(move |i| (0..n).map(move |j| (size, i, j)))) {
            let most = prefix.max(suffix) <= size;
            for inner in (0..1 << n).filter(|set| most && set & !set_of(inner_starts(n, size)) == 0) {
                let record = Record { prefix, suffix, offsets: vec![], inner };
                entries.push((key(entries.len()), size as u64, record.encode(&form, 0)));
            }
        }
        let count = entries.len();
        let files: Vec<Vec<Fingerprint>> =
            (0..3 * count).map(|f| [f, f * 7 + 3, f * 5 + f / count, f * 11].map(|k| key(k % count)).to_vec()).collect();
        let case = case(KIND, words.clone(), &small_chunks(), &files);
        let pairs: Vec<Vec<Fingerprint>> = files.iter().map(|file| file[..2].to_vec()).collect();
        let indexed = Case { index: Some(index::encode(&form, &words, &entries)), ..case };
        cases.extend([Case { recipes: recipes::encode(&pairs), ..indexed.clone() }, indexed]);
    }
    cases
}

/// The cases by hand.
pub fn by_hand() -> Vec<Case> {
    [papers(), lengths(), letters(), sets(), made_up()].concat()
}

/// Files of thousands of chunks of one byte, and of a few, with the longest keywords: all alike, of two letters, and 16 of them.
pub fn large(rng: &mut Rng) -> Vec<Case> {
    let kind = "long files of small chunks";
    let any = |rng: &mut Rng, n: usize| (0..n).map(|_| *rng.pick(b"AB")).collect::<Vec<u8>>();
    let many: Vec<Vec<u8>> = (0..16).map(|_| any(rng, 32)).collect();
    let lists = [vec![vec![b'A'; 32], vec![b'A'; 31], b"AB".repeat(16)], many.clone(), vec![vec![b'A'; 32]]];
    let chunks: Chunks = [&b"A"[..], b"B", b"AB", b"BAA", &[b'A'; 30], &[b'A'; 31]]
        .iter()
        .enumerate()
        .map(|(k, c)| (key(k), c.to_vec()))
        .collect();
    let mut cases = Vec::new();
    for words in lists {
        let spelled: Vec<Fingerprint> = words.iter().flatten().map(|b| key(usize::from(*b == b'B'))).collect();
        let mixed: Vec<Fingerprint> = (0..4_000).map(|_| key(rng.below(6))).collect();
        let letters: Vec<Fingerprint> = (0..6_000).map(|_| key(rng.below(2))).collect();
        let files = [spelled.repeat(4), vec![key(0); 5_000], mixed, letters, vec![key(4); 40], vec![key(5); 40]];
        cases.push(case(kind, list(false, &words.iter().map(|w| &w[..]).collect::<Vec<_>>()), &chunks, &files));
    }
    cases
}

#[cfg(test)]
mod tests {
    use super::*;
    use std::collections::{BTreeMap, HashSet};

    fn reached(cases: &[Case]) -> (Reached, HashSet<(u8, [u8; 4])>) {
        let (mut reached, mut codes) = (Reached::default(), HashSet::new());
        for index in cases.iter().filter_map(|case| Some((case.index.as_ref()?, &case.recipes))) {
            let read = index::read(index.0);
            let joined = read.as_ref().map_err(|code| *code).and_then(|read| Joined::new(read, index.1));
            codes.insert((joined.as_ref().err().copied().unwrap_or(0), [index.0[0], index.0[1], index.0[2], index.0[3]]));
            count(&mut reached, index.0, &joined);
        }
        (reached, codes)
    }

    #[test]
    fn the_cases_by_hand_come_upon_all() {
        let (reached, codes) = reached(&by_hand());
        assert_eq!(reached.missing(&ALL), [""; 0]);
        for form in KNOWN {
            let seen: Vec<u8> = [0, 13, 17].into_iter().filter(|code| codes.contains(&(*code, form.mark))).collect();
            assert_eq!(seen, if form.sets { vec![0, 13] } else { vec![0, 13, 17] });
        }
    }

    /// Each fault makes its index not good.
    #[test]
    fn faults_of_sets() {
        let mut codes: BTreeMap<&str, HashSet<u8>> = BTreeMap::new();
        for number in 0..4_000 {
            let mut rng = Rng::of_case(108, number);
            let vault = Vault::random(&mut rng);
            let case = damaged(&mut rng, &vault);
            if let Some(index) = &case.index {
                codes.entry(case.kind).or_default().insert(index::read(index).err().unwrap_or(0));
            }
        }
        assert_eq!(codes.len(), FAULTS.len() + 3);
        for (kind, codes) in codes {
            // A longer chunk or another keyword may have these starts.
            let may_be_good = ["sets: of a longer chunk", "sets: of another keyword"].contains(&kind);
            assert!(codes.contains(&13) && (may_be_good || codes.len() == 1), "{kind}: {codes:?}");
        }
    }

    #[test]
    fn random_ones_come_upon_all() {
        let cases: Vec<Case> = (0..3_000).map(|number| random(&mut Rng::of_case(7, number))).collect();
        assert_eq!(reached(&cases).0.missing(&ALL), [""; 0]);
    }
}
