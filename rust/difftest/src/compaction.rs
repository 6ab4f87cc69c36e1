//! Compaction (request 107): the library beside the oracle in every case, and beside itself on a store and on what it makes of it; cases for it.

use crate::clients;
use crate::compare::{fits, pattern, Comparison, Number, Verdict};
use crate::fixed::{case, key, small_chunks, Chunks};
use crate::inputs::{list, Case};
use crate::pairs::{Change, Pair};
use crate::reached::Reached;
use crate::rng::Rng;
use oracle::store::{self, Chunk};
use oracle::{compact, recipes, Fingerprint};
use std::collections::{HashMap, HashSet};
use vault::raw;

const UNNAMED: &str = "chunks that no recipe names";
const HOLES: &str = "holes";
const TWICE: &str = "a chunk named twice";
const ORDER: &str = "recipes in another order than the directory";
const NOTHING: &str = "chunks of which none is named";
const ITSELF: &str = "a store that stays as it is";
const BOTH: &str = "a refused store beside refused recipes";
const TOO_LONG: &str = "a file that a join refuses with 16";
const SHORT: &str = "a chunk of one byte inside a file";

/// What compactions have to come upon.
pub const ALL: [&str; 9] = [BOTH, NOTHING, SHORT, TWICE, UNNAMED, TOO_LONG, ITSELF, HOLES, ORDER];

impl Reached {
    /// A compaction that was done: a good store, the files of good recipes, and the new store.
    fn done(&mut self, old: &[u8], chunks: &[Chunk], files: &[Vec<Fingerprint>], new: &[u8]) {
        let mut seen = HashSet::new();
        let first: Vec<Fingerprint> = files.iter().flatten().copied().filter(|key| seen.insert(*key)).collect();
        let kept: Vec<Fingerprint> = chunks.iter().map(|c| c.key).filter(|key| seen.contains(key)).collect();
        let bytes: usize = chunks.iter().map(|c| 28 + c.place.len()).sum();
        self.count(UNNAMED, kept.len() < chunks.len());
        self.count(HOLES, 8 + bytes < old.len());
        self.count(TWICE, first.len() < files.iter().map(Vec::len).sum());
        self.count(ORDER, first != kept);
        self.count(NOTHING, kept.is_empty() && !chunks.is_empty());
        self.count(ITSELF, new == old && !kept.is_empty());
        let length_of: HashMap<Fingerprint, usize> = chunks.iter().map(|c| (c.key, c.place.len())).collect();
        self.count(SHORT, files.iter().any(|file| file.windows(3).any(|three| length_of[&three[1]] == 1)));
    }
}

/// Stores above this length are compared with the oracle only.
const LARGE: usize = 1 << 22;

impl Comparison<'_> {
    /// The new store's length, and compactions, beside the oracle.
    pub fn compactions(&mut self, bytes: &[u8], recipe_bytes: &[u8], chunks: &Result<Vec<Chunk>, u8>) -> Verdict {
        let want = compact::of(bytes, recipe_bytes);
        let mut size = Number::new(self.rng);
        let code = raw::compact_size(bytes, recipe_bytes, &mut size.now);
        self.code("compact_size", code, want.as_ref().err().copied().unwrap_or(0))?;
        let exact = want.as_ref().map_or(0, |new| new.len() as u64);
        self.told("compact_size", "length", &size, want.is_ok().then_some(exact))?;
        for length in if want.is_ok() { self.lengths(exact) } else { vec![0, self.rng.below(300)] } {
            let salt = self.rng.byte();
            let mut out = pattern(salt, length);
            let mut written = Number::new(self.rng);
            let code = raw::compact(bytes, recipe_bytes, &mut out, &mut written.now);
            let (want_code, front) = fits(&want, length, 9);
            self.code("compact", code, want_code)?;
            self.told("compact", "length", &written, (want_code == 0).then_some(front.len() as u64))?;
            self.buffer("compact", &out, salt, front)?;
        }
        if recipe_bytes.len() as u64 <= self.limits.large {
            let files = recipes::read(recipe_bytes);
            self.tally.compactions.count(BOTH, chunks.is_err() && files.is_err());
            if let (Ok(chunks), Ok(files), Ok(new)) = (chunks, &files, &want) {
                self.tally.compactions.done(bytes, chunks, files, new);
            }
        }
        Ok(())
    }

    /// The library on the case's store and on what its own compaction makes of that, in a buffer as long as the store: that is always enough. The
    /// new store is accepted, and compacted again it is itself.
    pub fn compacted(&mut self, case: &Case) -> Verdict {
        if case.store.len() > LARGE {
            return Ok(());
        }
        let (number, salt) = (self.rng.next(), self.rng.byte());
        let compacted = |store: &[u8]| {
            let (mut length, mut out) = (number, pattern(salt, store.len()));
            (raw::compact(store, &case.recipes, &mut out, &mut length), length, out)
        };
        let (code, length, out) = compacted(&case.store);
        match code {
            0 => (),
            9 => return Err("compact: code 9 for a buffer as long as the store".into()),
            _ => return Ok(()),
        }
        let new = out.get(..length as usize).ok_or(format!("compact: a length of {length} in {} bytes", out.len()))?;
        if compacted(new) != (0, length, new.into()) {
            return Err("compact: the new store, compacted again, isn't itself".into());
        }
        let (list, recipes) = (&case.list[..], &case.recipes[..]);
        let lent = clients::blind(self.rng, clients::words_of(list));
        self.searched_alike(&Pair { change: Change::Compacted, stores: [&case.store, new], list, recipes, number, salt, lent })
    }

    /// Lists and their refusals on a store and on the compacted one, with indexes in full and list buffers of equal length.
    fn searched_alike(&mut self, pair: &Pair) -> Verdict {
        self.alike(pair.change, "check_store", pair.stores.map(|store| (raw::check_store(store), ())))?;
        let sizes = pair.stores.map(|store| pair.number(|n| raw::scan_size(pair.list, store, n)));
        self.alike(pair.change, "scan_size", sizes.map(|(code, _)| (code, ())))?;
        if sizes[0].0 != 0 {
            return self.pair_searches(pair, 100, 50);
        }
        let [length, shorter] = sizes.map(|(_, length)| length as usize);
        if shorter > length {
            return Err(format!("scan_size: {length}, and {shorter} with {}", pair.change.name()));
        }
        let scans = pair.scans(length);
        let indexes = [&scans[0].2[..], &scans[1].2[..shorter]];
        let (code, count) = self.pair_counts(pair, indexes)?;
        self.tally.compactions.count(TOO_LONG, code == 16);
        let rooms = match code {
            0 if 9 * count <= self.limits.large => vec![9 * count as usize, (9 * count as usize).saturating_sub(1)],
            _ => vec![50],
        };
        for room in rooms {
            self.pair_lists(pair, indexes, room)?;
            self.pair_searches(pair, length, room)?;
        }
        self.pair_queries(pair, indexes)
    }
}

const KIND: &str = "compaction by hand";

/// The small vault's keywords, with these stores and recipes.
fn of(store: &[u8], files: &[Vec<Fingerprint>]) -> Case {
    Case { store: store.to_vec(), ..case(KIND, list(false, &[b"ABA", b"AA"]), &small_chunks(), files) }
}

/// The small vault's chunks with bytes of keywords between.
fn holed() -> Vec<u8> {
    store::encode_with_holes(&small_chunks(), &[b"ABA".to_vec(), b"A".to_vec(), b"".to_vec(), b"AA".to_vec()])
}

/// Every file of at most three of the three chunks, alone and parted into files with empty ones around.
fn every_naming() -> Vec<Case> {
    let mut cases = Vec::new();
    let keys = small_chunks().iter().map(|(key, _)| *key).collect::<Vec<_>>();
    let stores = [store::encode(&small_chunks()), holed()];
    for (count, k) in [(0, 1), (1, 3), (2, 9), (3, 27)].into_iter().flat_map(|(count, all)| (0..all).map(move |k| (count, k))) {
        let file: Vec<Fingerprint> = (0..count).map(|place: u32| keys[k / 3usize.pow(place) % 3]).collect();
        let parted = file.iter().flat_map(|key| [vec![], vec![*key]]).chain([vec![]]).collect::<Vec<_>>();
        cases.extend([of(&holed(), &[file]), of(&stores[k % 2], &parted)]);
    }
    cases
}

/// A fingerprint that isn't there, unlike one that is in a single byte: first, last, in the last file, and behind a file for which 17 stood
/// before request 108.
fn absent() -> Vec<Case> {
    let (a, b, c) = ([1; 20], [2; 20], [3; 20]);
    let mut cases = Vec::new();
    for at in [0, 1, 9, 10, 18, 19] {
        let mut near = b;
        near[at] ^= if at % 2 == 0 { 1 } else { 0x80 };
        for files in
            [vec![vec![near, a, b]], vec![vec![a, b, near]], vec![vec![a], vec![], vec![near]], vec![vec![a, c, b], vec![near]]]
        {
            cases.push(of(&holed(), &files));
        }
    }
    cases
}

/// Every fault of a store beside each of recipes: the first in the order of the tests is told, in buffers that are too short too.
fn order_of_tests() -> Vec<Case> {
    let (a, b) = ([1; 20], [9; 20]);
    let good = store::encode(&small_chunks());
    let spoiled = |at: usize, bytes: &[u8]| {
        let mut store = good.clone();
        store[at..at + bytes.len()].copy_from_slice(bytes);
        store
    };
    let stores = [
        good[..7].to_vec(),
        spoiled(2, b"2"),
        good[..91].to_vec(),
        good[..99].to_vec(),
        spoiled(36, &[1; 20]),
        spoiled(8 + 76, &[0xFF; 4]),
        good.clone(),
    ];
    let whole = recipes::encode(&[vec![a, b], vec![a]]);
    let formed = [vec![], whole[..3].to_vec(), whole[..whole.len() - 1].to_vec(), [&whole[..], &[0]].concat(), vec![0, 0, 1, 0]];
    let mut cases = Vec::new();
    for store in &stores {
        cases.extend(formed.iter().map(|recipes| Case { recipes: recipes.clone(), ..of(store, &[]) }));
        cases.extend([vec![vec![a, b]], vec![vec![a, a]], vec![]].map(|files| of(store, &files)));
    }
    cases
}

/// Numbers of chunks and offsets around which a byte more is needed: old and new differ in it.
fn carries() -> Vec<Case> {
    let mut cases = Vec::new();
    for count in [9, 10, 255, 256, 257, 300] {
        let chunks: Chunks = (0..count).map(|k| (key(k), vec![b'A' + k as u8 % 3; 1 + k % 4])).collect();
        let named = |step: usize| (0..count).rev().step_by(step).map(key).collect::<Vec<_>>();
        for files in [vec![named(1)], vec![named(2), named(3)], vec![vec![key(count - 1)], vec![key(0)]]] {
            cases.push(case(KIND, list(false, &[b"AA", b"B"]), &chunks, &files));
        }
    }
    cases
}

/// The cases by hand.
pub fn by_hand() -> Vec<Case> {
    [every_naming(), absent(), order_of_tests(), carries()].concat()
}

/// 65,000 chunks with holes, of which all and a part are named, each file with one; and chunks and holes longer than 65,535 bytes.
pub fn large(rng: &mut Rng) -> Vec<Case> {
    let kind = "large compactions";
    let words: &[&[u8]] = &[b"AB", b"x"];
    let many: Chunks = (0..65_000).map(|k| (key(k), (0..rng.range(1, 3)).map(|_| *rng.pick(b"ABx")).collect())).collect();
    let holes: Vec<Vec<u8>> = (0..=many.len()).map(|_| (0..rng.below(3)).map(|_| *rng.pick(b"AB")).collect()).collect();
    let bytes = store::encode_with_holes(&many, &holes);
    let mut cases = Vec::new();
    for (files, step) in [(65_535, 7), (21_000, 3)] {
        let files: Vec<Vec<Fingerprint>> = (0..files).map(|f| vec![key(step * f % 65_000)]).collect();
        cases.push(Case { store: bytes.clone(), ..case(kind, list(false, words), &many, &files) });
    }
    let long: Chunks = [1_048_576, 3, 65_535, 65_536, 1]
        .into_iter()
        .enumerate()
        .map(|(k, length)| (key(k), vec![b'A' + k as u8; length]))
        .collect();
    let bytes = store::encode_with_holes(&long, &[5, 0, 70_000, 1, 1_048_577, 2].map(|length| vec![b'x'; length]));
    for named in [&[4, 0, 4][..], &[3, 2], &[1], &[0, 1, 2, 3, 4]] {
        let files = [named.iter().map(|k| key(*k)).collect::<Vec<_>>()];
        cases.push(Case { store: bytes.clone(), ..case(kind, list(false, words), &long, &files) });
    }
    cases
}

#[cfg(test)]
mod tests {
    use super::*;

    /// What is missing once these files were compacted for: chunk numbers of the small vault, in a store with holes or without.
    fn missing_after(store: &[u8], files: &[&[u8]]) -> Vec<String> {
        let files: Vec<Vec<Fingerprint>> = files.iter().map(|file| file.iter().map(|k| [*k; 20]).collect()).collect();
        let mut reached = Reached::default();
        let new = compact::of(store, &recipes::encode(&files)).unwrap();
        reached.done(store, &store::read(store).unwrap(), &files, &new);
        reached.missing(&ALL)
    }

    #[test]
    fn what_a_compaction_comes_upon() {
        let all = Reached::default().missing(&ALL);
        let but = |met: &[&str]| all.iter().filter(|what| !met.contains(&what.as_str())).cloned().collect::<Vec<_>>();
        let plain = store::encode(&small_chunks());
        assert_eq!(all.len(), 9);
        assert_eq!(missing_after(&plain, &[&[1, 2], &[3]]), but(&[ITSELF]));
        assert_eq!(missing_after(&plain, &[&[1, 2, 1], &[3]]), but(&[ITSELF, TWICE]));
        assert_eq!(missing_after(&plain, &[&[2, 1, 3]]), but(&[ITSELF, ORDER]));
        assert_eq!(missing_after(&plain, &[&[1, 3, 2], &[3, 3]]), but(&[ITSELF, ORDER, TWICE, SHORT]));
        assert_eq!(missing_after(&holed(), &[&[1], &[2, 3]]), but(&[HOLES]));
        assert_eq!(missing_after(&holed(), &[&[3, 1]]), but(&[HOLES, ORDER, UNNAMED]));
        assert_eq!(missing_after(&plain, &[&[], &[]]), but(&[NOTHING, UNNAMED]));
    }

    #[test]
    fn stores_and_recipes_by_hand() {
        let cases = by_hand();
        let codes: HashSet<u8> = cases.iter().map(|case| compact::of(&case.store, &case.recipes).err().unwrap_or(0)).collect();
        assert_eq!(codes, HashSet::from([0, 5, 6, 7, 8, 14, 15, 20]));
        // The new count or the new offsets have another second byte than the old ones.
        let carried = |case: &Case| compact::of(&case.store, &case.recipes).is_ok_and(|new| new[5] != case.store[5]);
        assert!(cases.iter().any(carried));
    }
}
