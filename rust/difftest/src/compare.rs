//! One case: every call of the library beside the oracle, with every byte of every buffer.

use crate::across;
use crate::clients::{self, Lent, Listed};
use crate::folds::Meetings;
use crate::holes;
use crate::inputs::Case;
use crate::pairs::Change;
use crate::reached::Reached;
use crate::rng::Rng;
use oracle::join::{self, Joined};
use oracle::store::Chunk;
use oracle::{calls, direct, index, keywords, moves, recipes, store, U32};
use std::collections::{BTreeMap, HashMap};
use vault::raw;

/// What was run.
#[derive(Default)]
pub struct Tally {
    pub kinds: BTreeMap<&'static str, u64>,
    /// Calls by operation and code.
    pub codes: BTreeMap<(&'static str, u8), u64>,
    pub occurrences: u64,
    /// The moves of all accepted stores, and scans into buffers in which the library walks each chunk once.
    pub moves: u64,
    pub one_walk: u64,
    /// Stores whose moves the oracle counted by strings too.
    pub by_strings: u64,
    /// Lists that the direct search of restored files gave too.
    pub direct: u64,
    /// Bytes of buffers compared.
    pub bytes: u64,
    /// Answers on a store compared with those on another one that has the same chunks.
    pub pairs: BTreeMap<Change, u64>,
    /// Stores that are good, with a hole before the first chunk, between two, and behind the last.
    pub holes: [u64; 3],
    /// What compactions came upon, joins of chunks that keywords cross, and queries.
    pub compactions: Reached,
    pub crossings: Reached,
    pub queries: Reached,
    /// What the keys and tallies of joins and searches came upon.
    pub clients: Reached,
    /// Lines of queries, each query's once.
    pub lines: u64,
    /// Bytes at the fold's borders.
    pub meetings: Meetings,
    /// Indexes that are good, by mark; stores that are good with a chunk longer than 65,535 bytes.
    pub marks: BTreeMap<[u8; 4], u64>,
    pub long: u64,
}

impl Tally {
    pub fn holes_by_place(&self) -> [(&'static str, u64); 3] {
        let [first, between, last] = self.holes;
        [("before the first chunk", first), ("between two", between), ("behind the last", last)]
    }

    /// The places at which no good store had a hole.
    pub fn missing_holes(&self) -> Vec<String> {
        self.holes_by_place().into_iter().filter(|(_, count)| *count == 0).map(|(place, _)| place.into()).collect()
    }
}

/// How a case is run.
pub struct Limits {
    /// Buffers above this length aren't made.
    pub buffer: u64,
    /// Restored bytes times keywords above which the direct search is left out.
    pub direct: u64,
    /// From this length on, a buffer is tried exact and one short only.
    pub large: u64,
    /// Buffers as long as the scan's bound aren't made above this length.
    pub bound: u64,
    /// Bytes of chunks above which the moves aren't counted by strings.
    pub strings: u64,
    /// Bytes of restored files above which it isn't counted how bytes at the fold's borders meet.
    pub meetings: usize,
}

pub const USUAL: Limits =
    Limits { buffer: 1 << 30, direct: 1 << 30, large: 1 << 20, bound: 1 << 28, strings: 1 << 13, meetings: 1 << 11 };

pub struct Comparison<'a> {
    pub tally: &'a mut Tally,
    pub rng: &'a mut Rng,
    pub limits: &'a Limits,
}

pub type Verdict = Result<(), String>;

/// What a call writes in a buffer that is long enough, or its refusal.
pub type Bytes = Result<Vec<u8>, u8>;

impl Comparison<'_> {
    pub fn run(&mut self, case: &Case) -> Verdict {
        *self.tally.kinds.entry(case.kind).or_default() += 1;
        let mut input = |bytes: &[u8]| Input::new(bytes, self.rng.below(4));
        let (list, stored, recipes) = (input(&case.list), input(&case.store), input(&case.recipes));
        let own = case.index.as_ref().map(|index| input(index));
        let scanned = self.scans(list.get(), stored.get())?;
        let chunks = store::read(stored.get());
        if let Ok(chunks) = &chunks {
            self.good_store(chunks, case.store.len());
        }
        // The last fingerprint is a part of the store itself: its first entry's.
        for key in case.keys.iter().map(|key| &key[..]).chain(stored.get().get(8..28)) {
            self.lookup("find_chunk", raw::chunk(stored.get(), key), calls::chunk_in(&chunks, key))?;
        }
        if let Some(index) = own.as_ref().map(Input::get).or(scanned.as_deref().ok()) {
            self.joins(index, recipes.get(), case)?;
            let read = index::read(index);
            let entry = 8 + case.list.len();
            for key in case.keys.iter().map(|key| &key[..]).chain(index.get(entry..entry + 20)) {
                self.lookup("find_body", raw::body(index, key), calls::body_in(&read, key))?;
            }
        }
        self.searches(list.get(), stored.get(), recipes.get(), &scanned, &case.lents)?;
        self.compactions(stored.get(), recipes.get(), &chunks)?;
        let kept = list.get() == case.list && stored.get() == case.store && recipes.get() == case.recipes;
        if !kept || own.is_some_and(|index| Some(index.get()) != case.index.as_deref()) {
            return Err("an input was changed".into());
        }
        Ok(())
    }

    /// What a good store of that length has.
    fn good_store(&mut self, chunks: &[Chunk], length: usize) {
        self.tally.long += u64::from(chunks.iter().any(|c| c.place.len() > 65_535));
        for (k, _) in holes::of(chunks, length).iter().enumerate().filter(|(_, hole)| !hole.is_empty()) {
            self.tally.holes[if k == chunks.len() { 2 } else { k.min(1) }] += 1;
        }
    }

    pub fn code(&mut self, call: &'static str, got: u8, want: u8) -> Verdict {
        *self.tally.codes.entry((call, want)).or_default() += 1;
        if got != want {
            return Err(format!("{call}: code {got}, the oracle says {want}"));
        }
        Ok(())
    }

    fn number(&mut self, call: &'static str, what: &str, got: u64, want: u64) -> Verdict {
        if got != want {
            return Err(format!("{call}: {what} {got}, the oracle says {want}"));
        }
        Ok(())
    }

    /// A number that held the pattern and now has the value told, or the pattern still if none was told.
    pub fn told(&mut self, call: &'static str, what: &str, number: &Number, want: Option<u64>) -> Verdict {
        match want {
            Some(value) => self.number(call, what, number.now, value),
            None if number.now == number.pattern => Ok(()),
            None => Err(format!("{call}: {what} was changed to {} by a refusal", number.now)),
        }
    }

    /// A buffer that held the pattern and now has these bytes in front.
    pub fn buffer(&mut self, call: &'static str, buffer: &[u8], salt: u8, front: &[u8]) -> Verdict {
        self.tally.bytes += buffer.len() as u64;
        let (written, rest) = buffer.split_at(front.len());
        if let Some(at) = (0..front.len()).find(|at| written[*at] != front[*at]) {
            return Err(format!(
                "{call}: byte {at} of {} is {:02x}, the oracle says {:02x}",
                front.len(),
                written[at],
                front[at]
            ));
        }
        if let Some(at) = (0..rest.len()).find(|at| rest[*at] != pattern_byte(salt, front.len() + at)) {
            return Err(format!(
                "{call}: byte {} after the {} written ones of a buffer of {} was changed",
                at,
                front.len(),
                buffer.len()
            ));
        }
        Ok(())
    }

    /// Lengths of buffers to try for something of this length: exact, one short, and others if it isn't large.
    pub fn lengths(&mut self, exact: u64) -> Vec<usize> {
        let mut lengths = vec![exact, exact.saturating_sub(1)];
        if exact < self.limits.large {
            lengths.extend([0, exact + 1, exact + 1 + self.rng.below(40) as u64, self.rng.below(exact as usize + 1) as u64]);
        }
        lengths.retain(|length| *length <= self.limits.buffer);
        lengths.dedup();
        lengths.into_iter().map(|length| length as usize).collect()
    }

    /// The length from which on the library scans with one walk, and one byte less.
    pub fn around_the_bound(&self, list: &[u8], bytes: &[u8], most: u64) -> Vec<usize> {
        match vault::scan_bound(list, bytes) {
            bound if bound <= most => vec![bound as usize, bound as usize - 1],
            _ => vec![],
        }
    }

    /// The oracle's moves; of small stores it counts them twice.
    fn moves(&mut self, list: &[u8], bytes: &[u8]) -> Result<Result<u64, u8>, String> {
        let counted = calls::moves_of(list, bytes);
        let (Ok(count), Ok(keywords), Ok(chunks)) = (counted, keywords::read(list), store::read(bytes)) else {
            return Ok(counted);
        };
        let data: u64 = chunks.iter().map(|c| c.place.len() as u64).sum();
        if !(data..=2 * data).contains(&count) {
            return Err(format!("the oracle counts {count} moves over {data} bytes (a fault of the oracle)"));
        }
        if data <= self.limits.strings {
            if moves::of_scan_by_strings(&keywords, bytes, &chunks) != count {
                return Err("the oracle's moves by numbers and by strings differ (a fault of the oracle)".into());
            }
            self.tally.by_strings += 1;
        }
        self.tally.moves += count;
        Ok(counted)
    }

    /// Keyword check, store check, the scan's length, and scans. Gives the index.
    fn scans(&mut self, list: &[u8], bytes: &[u8]) -> Result<Bytes, String> {
        self.code("check_keywords", raw::check_keywords(list), calls::check_keywords(list))?;
        self.listed(list, calls::check_keywords(list));
        self.code("check_store", raw::check_store(bytes), calls::check_store(bytes))?;
        let want = calls::index_of(list, bytes);
        let mut size = Number::new(self.rng);
        let code = raw::scan_size(list, bytes, &mut size.now);
        self.code("scan_size", code, want.as_ref().err().copied().unwrap_or(0))?;
        let exact = want.as_ref().map_or(0, |index| index.len() as u64);
        self.told("scan_size", "length", &size, want.is_ok().then_some(exact))?;
        let moves = self.moves(list, bytes)?;
        let mut lengths = if want.is_ok() { self.lengths(exact) } else { vec![0, self.rng.below(300)] };
        lengths.extend(self.around_the_bound(list, bytes, if want.is_ok() { self.limits.bound } else { self.limits.large }));
        for length in lengths {
            let salt = self.rng.byte();
            let mut out = pattern(salt, length);
            let (mut written, mut moved) = (Number::new(self.rng), Number::new(self.rng));
            let code = raw::scan(list, bytes, &mut out, (&mut written.now, &mut moved.now));
            let (want_code, front) = fits(&want, length, 9);
            self.code("scan", code, want_code)?;
            self.told("scan", "length", &written, (want_code == 0).then_some(front.len() as u64))?;
            self.told("scan", "moves", &moved, moves.ok().filter(|_| want_code == 0))?;
            self.buffer("scan", &out, salt, front)?;
            self.tally.one_walk += u64::from(want_code == 0 && length as u64 >= vault::scan_bound(list, bytes));
        }
        Ok(want)
    }

    /// Index check, the count, joins, and queries.
    fn joins(&mut self, bytes: &[u8], recipes: &[u8], case: &Case) -> Verdict {
        let index = index::read(bytes);
        self.code("check_index", raw::check_index(bytes), index.as_ref().err().copied().unwrap_or(0))?;
        self.listed(vault::keywords_in_index(bytes), index.as_ref().err().copied().unwrap_or(0));
        if index.is_ok() {
            *self.tally.marks.entry([bytes[0], bytes[1], bytes[2], bytes[3]]).or_default() += 1;
        }
        let joined = index.as_ref().map_err(|code| *code).and_then(|index| Joined::new(index, recipes));
        across::count(&mut self.tally.crossings, bytes, &joined);
        let count = joined.as_ref().map(Joined::count).map_err(|code| *code);
        let mut counted = Number::new(self.rng);
        let code = raw::count(bytes, recipes, &mut counted.now);
        self.code("count", code, count.err().unwrap_or(0))?;
        self.told("count", "count", &counted, count.ok())?;
        let exact = 9 * count.unwrap_or(0);
        // Beyond the limit no list is made: every buffer that is tried is too short.
        let found = match &joined {
            Ok(joined) if exact <= self.limits.buffer => Ok(joined.list()),
            Ok(_) => Err(18),
            Err(code) => Err(*code),
        };
        let list = found.as_ref().map(|found| join::encode(found)).map_err(|code| *code);
        let mut lengths = if list.is_ok() { self.lengths(exact) } else { vec![0, self.rng.below(300)] };
        if exact > self.limits.buffer {
            // 9 x count modulo 2^32, and a little more.
            let wrapped = (exact & U32) as usize;
            lengths.extend([wrapped, wrapped + 44_651].into_iter().filter(|length| *length as u64 <= self.limits.buffer));
        }
        let found = found.unwrap_or_default();
        let listed = Listed::new(index.as_ref().ok().map(|index| &index.keywords), &found);
        self.lists(bytes, recipes, listed, &list, (lengths, &case.lents))?;
        self.queries(bytes, recipes, &joined, &found, &case.queries)
    }

    fn lookup(
        &mut self,
        call: &'static str,
        (code, start, length): (u8, u64, u64),
        want: Result<std::ops::Range<usize>, u8>,
    ) -> Verdict {
        self.code(call, code, want.as_ref().err().copied().unwrap_or(0))?;
        let place = want.unwrap_or(0..0);
        self.number(call, "start", start, place.start as u64)?;
        self.number(call, "length", length, place.len() as u64)
    }

    /// Scan and join in one call, and the direct search of the restored files.
    fn searches(&mut self, list: &[u8], bytes: &[u8], recipes: &[u8], index: &Bytes, own: &[Lent]) -> Verdict {
        let read = index.as_ref().map_err(|code| *code).and_then(|index| index::read(index));
        let joined = read.as_ref().map_err(|code| *code).and_then(|read| Joined::new(read, recipes));
        let exact = 9 * joined.as_ref().map_or(0, Joined::count);
        let found = match &joined {
            Ok(joined) if exact <= self.limits.buffer => Ok(joined.list()),
            Ok(_) => Err(18),
            Err(code) => Err(*code),
        };
        if let Ok(found) = &found {
            self.tally.occurrences += found.len() as u64;
            self.direct(list, bytes, recipes, found)?;
        }
        let rows = found.as_ref().map(|found| join::encode(found)).map_err(|code| *code);
        let found = found.unwrap_or_default();
        let listed = Listed::new(read.as_ref().ok().map(|read| &read.keywords), &found);
        let length = index.as_ref().map_or(100, |index| index.len());
        let room = if rows.is_ok() { exact as usize } else { 50 };
        let more = self.rng.below(30);
        let mut tries = vec![(length, room), (length, room.saturating_sub(1))];
        if (length + room) as u64 <= self.limits.large {
            tries.extend([(length - 1, room), (length + more, room + more)]);
            tries.extend(self.around_the_bound(list, bytes, self.limits.large).into_iter().map(|length| (length, room)));
        }
        let mut tries: Vec<_> = tries.into_iter().map(|rooms| (rooms, clients::accepted(self.rng, listed))).collect();
        tries.extend(own.iter().map(|lent| ((length, room), lent.clone())));
        tries.push(((length, room), clients::any(self.rng, listed)));
        if (length + room) as u64 <= self.limits.large {
            tries.push(((length, room + more), clients::any(self.rng, listed)));
            tries.push(((length - 1, room), clients::any(self.rng, listed)));
        }
        for (rooms, lent) in tries {
            self.search((list, bytes, recipes), (index, &rows), listed, rooms, &lent)
                .map_err(|why| format!("{why} ({lent:?})"))?;
        }
        Ok(())
    }

    /// One search beside the oracle: of these inputs, which scan and join to these, in buffers of these lengths.
    fn search(
        &mut self,
        (list, bytes, recipes): (&[u8], &[u8], &[u8]),
        (index, rows): (&Bytes, &Bytes),
        listed: Listed,
        (length, room): (usize, usize),
        lent: &Lent,
    ) -> Verdict {
        let (salt, pepper) = (self.rng.byte(), self.rng.byte());
        let (mut indexed, mut out) = (pattern(salt, length), pattern(pepper, room));
        let (mut scanned, mut count, mut after) = (Number::new(self.rng), Number::new(self.rng), lent.before);
        let key = Input::new(&lent.key, self.rng.below(4));
        let (buffers, numbers) = ((&mut indexed[..], &mut out[..]), (&mut scanned.now, &mut count.now));
        let code = raw::search(list, bytes, recipes, key.get(), buffers, numbers, &mut after);
        let (scan_code, index_front) = fits(index, length, 9);
        let (earlier, front) = if scan_code == 0 { fits(rows, room, 18) } else { (scan_code, &[][..]) };
        let want = self.charged(earlier, listed, lent)?;
        let front = if want.0 == 0 { front } else { &[] };
        self.code("search", code, want.0)?;
        self.told("search", "index length", &scanned, (scan_code == 0).then_some(index_front.len() as u64))?;
        self.told("search", "count", &count, (want.0 == 0).then_some(front.len() as u64 / 9))?;
        self.buffer("search's index", &indexed, salt, index_front)?;
        self.buffer("search's list", &out, pepper, front)?;
        self.counts("search", &after, lent, want)?;
        match key.get() == lent.key {
            true => Ok(()),
            false => Err("search: the key was changed".into()),
        }
    }

    /// The oracle's join beside the direct search, where the files aren't too large for it.
    fn direct(&mut self, list: &[u8], bytes: &[u8], recipe_bytes: &[u8], found: &[join::Occurrence]) -> Verdict {
        let (Ok(keywords), Ok(chunks), Ok(files)) = (keywords::read(list), store::read(bytes), recipes::read(recipe_bytes))
        else {
            return Err("the oracle joined what it refuses to read".into());
        };
        let places = files.iter().map(Vec::len).sum::<usize>() as u64;
        let longest = chunks.iter().map(|c| c.place.len()).max().unwrap_or(0) as u64;
        if places * longest * keywords.words.len() as u64 > self.limits.direct {
            return Ok(());
        }
        let restored = direct::restore(bytes, &chunks, &files).ok_or("the oracle joined a chunk that isn't there")?;
        if direct::search(&keywords, &restored) != found {
            return Err("the oracle's join and the direct search of the restored files differ (a fault of the oracle)".into());
        }
        self.tally.direct += 1;
        if restored.iter().map(Vec::len).sum::<usize>() <= self.limits.meetings {
            let length_of: HashMap<_, usize> = chunks.iter().map(|c| (c.key, c.place.len())).collect();
            for (data, file) in restored.iter().zip(&files) {
                let ends = file.iter().scan(0, |end, key| {
                    *end += length_of[key];
                    Some(*end)
                });
                self.tally.meetings.in_file(keywords.fold, &keywords.words, data, &ends.collect::<Vec<_>>());
            }
        }
        Ok(())
    }

    /// How bytes at the fold's borders meet in a list that has this code: accepted, or refused for two keywords alike.
    fn listed(&mut self, list: &[u8], code: u8) {
        if code == 0 || code == 4 {
            self.tally.meetings.in_list(list[1] == 1, &vault::keywords_of(list));
        }
    }
}

/// A number behind a pointer: what it held before the call, and what it holds.
pub struct Number {
    pattern: u64,
    pub now: u64,
}

impl Number {
    pub fn new(rng: &mut Rng) -> Number {
        let pattern = rng.next();
        Number { pattern, now: pattern }
    }
}

/// An input that starts at any address and ends where its memory does, so that valgrind sees one byte too far.
pub struct Input {
    memory: Box<[u8]>,
    start: usize,
}

impl Input {
    pub fn new(bytes: &[u8], start: usize) -> Input {
        Input { memory: [&[0; 4][..start], bytes].concat().into_boxed_slice(), start }
    }

    pub fn get(&self) -> &[u8] {
        &self.memory[self.start..]
    }
}

/// The code and the bytes written for a buffer of that length.
pub fn fits(bytes: &Bytes, length: usize, too_long: u8) -> (u8, &[u8]) {
    match bytes {
        Ok(bytes) if bytes.len() <= length && bytes.len() as u64 <= U32 => (0, bytes),
        Ok(_) => (too_long, &[]),
        Err(code) => (*code, &[]),
    }
}

fn pattern_byte(salt: u8, at: usize) -> u8 {
    (at as u8).wrapping_mul(167) ^ (at >> 8) as u8 ^ salt
}

pub fn pattern(salt: u8, length: usize) -> Box<[u8]> {
    (0..length).map(|at| pattern_byte(salt, at)).collect()
}
