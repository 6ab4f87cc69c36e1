//! The library on a pair of stores, everything else being equal: with the same chunks in another order (request 101) or with other holes
//! (request 106), and a store with what a compaction makes of it (request 107). Joins and searches of both have the same key and tallies that are equal at
//! entry (request 110). Its answers are compared with each other; no oracle is asked.

use crate::clients::{self, Lent};
use crate::compare::{pattern, Comparison, Verdict};
use crate::inputs::Case;
use vault::raw;

/// How the two stores differ.
#[derive(Clone, Copy, PartialEq, Eq, PartialOrd, Ord)]
pub enum Change {
    /// In the order of their chunks, and in their holes. The indexes have their entries in another order: of those written, the lengths
    /// are compared.
    Order,
    /// In their holes alone: every answer and every byte is the same.
    Holes,
    /// The second is the first compacted: of scans nothing need be the same, of lists and their refusals everything.
    Compacted,
}

impl Change {
    pub fn name(self) -> &'static str {
        match self {
            Change::Order => "the store's chunks in another order",
            Change::Holes => "other bytes in the store's holes",
            Change::Compacted => "the store compacted",
        }
    }
}

/// Both stores, and what is the same beside them.
pub struct Pair<'a> {
    pub change: Change,
    pub stores: [&'a [u8]; 2],
    pub list: &'a [u8],
    pub recipes: &'a [u8],
    /// What a number and the buffers hold before a call.
    pub number: u64,
    pub salt: u8,
    /// The key of both, and their tallies at entry, which are equal (request 110).
    pub lent: Lent,
}

/// A scan's code, its length and moves, and its buffer.
pub type Scanned = (u8, (u64, u64), Box<[u8]>);

impl Pair<'_> {
    pub fn number(&self, call: impl FnOnce(&mut u64) -> u8) -> (u8, u64) {
        let mut number = self.number;
        (call(&mut number), number)
    }

    pub fn scans(&self, length: usize) -> [Scanned; 2] {
        self.stores.map(|store| {
            let (mut length, mut moves, mut out) = (self.number, !self.number, pattern(self.salt, length));
            let code = raw::scan(self.list, store, &mut out, (&mut length, &mut moves));
            (code, (length, moves), out)
        })
    }

    /// Compactions of both, in buffers of that length.
    fn compactions(&self, length: usize) -> [(u8, u64, Box<[u8]>); 2] {
        self.stores.map(|store| {
            let mut out = pattern(self.salt, length);
            let (code, told) = self.number(|n| raw::compact(store, self.recipes, &mut out, n));
            (code, told, out)
        })
    }

    /// What has to be the same of a buffer for an index or a store.
    fn due<'b>(&self, written: bool, buffer: &'b [u8]) -> Option<&'b [u8]> {
        (self.change == Change::Holes || !written).then_some(buffer)
    }

    /// The bytes that a lookup answers, and where they start if that has to be the same.
    fn part<'b>(&self, whole: &'b [u8], (code, start, length): (u8, u64, u64)) -> (u8, (&'b [u8], Option<u64>)) {
        let bytes = &whole[start as usize..(start + length) as usize];
        (code, (bytes, (self.change == Change::Holes).then_some(start)))
    }
}

impl Comparison<'_> {
    /// The library on the case's store and on another one.
    pub fn pair(&mut self, change: Change, case: &Case, other: &[u8]) -> Verdict {
        let (list, recipes) = (&case.list[..], &case.recipes[..]);
        let lent = clients::blind(self.rng, clients::words_of(list));
        let (number, salt) = (self.rng.next(), self.rng.byte());
        let pair = Pair { change, stores: [other, &case.store], list, recipes, number, salt, lent };
        self.alike(change, "check_store", pair.stores.map(|store| (raw::check_store(store), ())))?;
        let sizes = pair.stores.map(|store| pair.number(|n| raw::scan_size(list, store, n)));
        self.alike(change, "scan_size", sizes)?;
        let length = if sizes[0].0 == 0 { sizes[0].1 as usize } else { 100 };
        let mut lengths: Vec<usize> =
            pair.stores.iter().flat_map(|store| self.around_the_bound(list, store, self.limits.large)).collect();
        lengths.push(length - 1);
        for length in lengths {
            self.alike_scans(&pair, &pair.scans(length))?;
        }
        let scans = pair.scans(length);
        self.alike_scans(&pair, &scans)?;
        let indexes = scans.each_ref().map(|(_, _, index)| &index[..]);
        let room = if scans[0].0 == 0 { self.pair_joins(&pair, indexes)? } else { 50 };
        for (length, room) in [(length, room), (length, room.saturating_sub(1)), (length - 1, room)] {
            self.pair_searches(&pair, length, room)?;
        }
        self.pair_compactions(&pair)?;
        self.pair_lookups(&pair, &case.keys, indexes)
    }

    fn alike_scans(&mut self, pair: &Pair, scans: &[Scanned; 2]) -> Verdict {
        self.alike(pair.change, "scan", scans.each_ref().map(|(code, told, out)| (*code, (told, pair.due(*code == 0, out)))))
    }

    /// Compactions of both stores, which have the same chunks: of the same length, which neither store falls below.
    fn pair_compactions(&mut self, pair: &Pair) -> Verdict {
        let sizes = pair.stores.map(|store| pair.number(|n| raw::compact_size(store, pair.recipes, n)));
        self.alike(pair.change, "compact_size", sizes)?;
        let done = sizes[0].0 == 0;
        let length = if done { sizes[0].1 as usize } else { 50 };
        if done && pair.stores.iter().any(|store| store.len() < length) {
            return Err(format!("compact_size: {length}, more than {} has", pair.change.name()));
        }
        for length in [length, length - 1] {
            let compactions = pair.compactions(length);
            let [a, b] = &compactions;
            let answers = [a, b].map(|(code, told, out)| (*code, (told, pair.due(*code == 0, out))));
            self.alike(pair.change, "compact", answers)?;
        }
        Ok(())
    }

    /// Counts and joins of what the scans wrote. Gives the list's length.
    fn pair_joins(&mut self, pair: &Pair, indexes: [&[u8]; 2]) -> Result<usize, String> {
        let (code, count) = self.pair_counts(pair, indexes)?;
        let room = if code == 0 { 9 * count.min(self.limits.buffer / 9) as usize } else { 50 };
        for room in [room, room.saturating_sub(1)] {
            self.pair_lists(pair, indexes, room)?;
        }
        self.pair_queries(pair, indexes)?;
        Ok(room)
    }

    /// Counts of what the scans wrote. Gives code and count.
    pub fn pair_counts(&mut self, pair: &Pair, indexes: [&[u8]; 2]) -> Result<(u8, u64), String> {
        let counts = indexes.map(|index| pair.number(|n| raw::count(index, pair.recipes, n)));
        self.alike(pair.change, "count", counts)?;
        Ok(counts[0])
    }

    /// Joins of what the scans wrote, in list buffers of that length.
    pub fn pair_lists(&mut self, pair: &Pair, indexes: [&[u8]; 2], room: usize) -> Verdict {
        let joins = indexes.map(|index| {
            let (mut out, mut after) = (pattern(pair.salt, room), pair.lent.before);
            let (code, count) = pair.number(|n| raw::join(index, pair.recipes, &pair.lent.key, &mut out, n, &mut after));
            (code, (count, out, after))
        });
        self.pair_lent(joins[0].0, &pair.lent, &joins[0].1 .2);
        self.alike(pair.change, "join", joins)
    }

    /// Searches of both stores, in index buffers of that length and list buffers of that room.
    pub fn pair_searches(&mut self, pair: &Pair, length: usize, room: usize) -> Verdict {
        let searches = pair.stores.map(|store| {
            let (mut index, mut out) = (pattern(pair.salt, length), pattern(pair.salt, room));
            let (mut scanned, mut count, mut after) = (pair.number, pair.number, pair.lent.before);
            let (buffers, numbers) = ((&mut index[..], &mut out[..]), (&mut scanned, &mut count));
            let code = raw::search(pair.list, store, pair.recipes, &pair.lent.key, buffers, numbers, &mut after);
            (code, scanned, (count, after), index, out)
        });
        self.pair_lent(searches[0].0, &pair.lent, &searches[0].2 .1);
        let due = |index| pair.due(searches[0].1 != pair.number, index);
        let told = |scanned| (pair.change != Change::Compacted).then_some(scanned);
        let [a, b] = &searches;
        self.alike(
            pair.change,
            "search",
            [a, b].map(|(code, scanned, count, index, out)| (*code, (told(scanned), count, due(index), out))),
        )
    }

    /// Chunks and bodies by fingerprint, in the stores and in what the scans of them wrote.
    fn pair_lookups(&mut self, pair: &Pair, keys: &[Vec<u8>], indexes: [&[u8]; 2]) -> Verdict {
        for key in keys {
            self.alike(pair.change, "find_chunk", pair.stores.map(|store| pair.part(store, raw::chunk(store, key))))?;
            self.alike(pair.change, "find_body", indexes.map(|index| pair.part(index, raw::body(index, key))))?;
        }
        Ok(())
    }

    /// Two answers: their codes, and the rest of them.
    pub fn alike<T: PartialEq>(&mut self, change: Change, call: &'static str, [a, b]: [(u8, T); 2]) -> Verdict {
        *self.tally.pairs.entry(change).or_default() += 1;
        match (a.0, b.0) {
            (a, b) if a != b => Err(format!("{call}: code {a}, and {b} with {}", change.name())),
            (code, _) if a.1 != b.1 => Err(format!("{call}: code {code}, but another answer with {}", change.name())),
            _ => Ok(()),
        }
    }
}
