//! Queries (request 109): the library beside the oracle in every case, with queries that files answer and that none does; cases for them.

use crate::across::under_each_mark;
use crate::compare::{fits, pattern, Comparison, Input, Number, Verdict};
use crate::fixed::{case, key, small_chunks, Chunks};
use crate::inputs::{list, Case};
use crate::pairs::Pair;
use crate::reached::Reached;
use crate::rng::Rng;
use oracle::form::{Form, FORM1, FORM2, FORM3, KNOWN};
use oracle::join::{Joined, Occurrence};
use oracle::query::{self, Line};
use oracle::records::Record;
use oracle::{index, recipes, Fingerprint};
use vault::raw;

const WITH: &str = "a file with a line";
const WITHOUT: &str = "a file without one beside it";
const NEARLY: &str = "a file that lacks the last keyword only";
const SEVERAL: &str = "several lines";
const EIGHT: &str = "a line of eight";
const REPEATED: &str = "a repeated keyword";
const ADJACENT: &str = "adjacent occurrences chosen";
const BORDER: &str = "one over a chunk border chosen";
const OVERLAP: &str = "an overlapping one skipped";
const OWN_OVERLAP: &str = "one that overlaps the same keyword skipped";
const TIE: &str = "one at the same offset skipped";
const TOO_EARLY: &str = "one before its turn skipped";
const LATER: &str = "a later choice left";
const LAST_PLACE: &str = "complete in the last place";
const EARLY: &str = "complete before the last place";
const OLDEST: &str = "a line under DM1";
const OLDER: &str = "a line under DM2";
const NEWEST: &str = "a line under DM3";
const ONE_FITS: &str = "18 where the first line fits";
const BEFORE_18: &str = "21 before 18";
const NUMBER: &str = "21 for the number w alone";
const AFTER_INDEX: &str = "an index's number before 21";
const AFTER_14: &str = "14 before 21";
const AFTER_15: &str = "15 before 21";
const AFTER_16: &str = "16 before 21";
const AFTER_17: &str = "17 before 21";

/// What queries have to come upon.
pub const ALL: [&str; 26] = [
    WITH,
    WITHOUT,
    NEARLY,
    SEVERAL,
    EIGHT,
    REPEATED,
    ADJACENT,
    BORDER,
    OVERLAP,
    OWN_OVERLAP,
    TIE,
    TOO_EARLY,
    LATER,
    LAST_PLACE,
    EARLY,
    OLDEST,
    OLDER,
    NEWEST,
    ONE_FITS,
    BEFORE_18,
    NUMBER,
    AFTER_INDEX,
    AFTER_14,
    AFTER_15,
    AFTER_16,
    AFTER_17,
];

/// More occurrences are not queried: only queries that are refused.
const MOST: usize = 1 << 25;

/// Lists of more occurrences are not looked into, and lists and inputs from some lengths on are queried less.
const MANY: usize = 4_000;
const LARGE: usize = 1 << 20;

/// Whether a query has a length that one may have.
fn is_long_enough(query: &[u8]) -> bool {
    (2..=8).contains(&query.len())
}

impl Reached {
    /// A query that was refused before its lines were made.
    fn refused(&mut self, code: u8, query: &[u8]) {
        let bad = !is_long_enough(query);
        self.count(AFTER_INDEX, bad && code < 14);
        for (number, what) in [(14, AFTER_14), (15, AFTER_15), (16, AFTER_16), (17, AFTER_17)] {
            self.count(what, bad && code == number);
        }
    }

    /// A query that was refused with 21, though the rest is good.
    fn wrong(&mut self, joined: &Joined, found: &[Occurrence], query: &[u8]) {
        let keywords = &joined.index.keywords;
        let w = keywords.words.len();
        let numbers = query.iter().all(|k| usize::from(*k) < w);
        self.count(BEFORE_18, numbers && !query.is_empty() && !query::lines(keywords, found, query).is_empty());
        self.count(NUMBER, is_long_enough(query) && query.iter().all(|k| usize::from(*k) <= w) && !numbers);
    }

    /// A query that was answered with these lines.
    fn answered(&mut self, joined: &Joined, found: &[Occurrence], query: &[u8], lines: &[Line]) {
        self.count(WITH, !lines.is_empty());
        self.count(WITHOUT, !lines.is_empty() && lines.len() < joined.files.len());
        self.count(SEVERAL, lines.len() > 1);
        self.count(EIGHT, !lines.is_empty() && query.len() == 8);
        for (form, what) in [(FORM1, OLDEST), (FORM2, OLDER), (FORM3, NEWEST)] {
            self.count(what, joined.index.form == form && !lines.is_empty());
        }
        let keywords = &joined.index.keywords;
        self.count(NEARLY, query::lines(keywords, found, &query[..query.len() - 1]).len() > lines.len());
        for line in lines {
            let found: Vec<Occurrence> = found.iter().copied().filter(|o| o.file == line.file).collect();
            self.line(joined, &found, query, line);
        }
    }

    /// One line, and all occurrences of its file.
    fn line(&mut self, joined: &Joined, found: &[Occurrence], query: &[u8], line: &Line) {
        let (entries, words) = (&joined.index.entries, &joined.index.keywords.words);
        let starts = &line.offsets;
        let ends: Vec<u64> = starts.iter().zip(query).map(|(o, k)| u64::from(*o) + words[usize::from(*k)].len() as u64).collect();
        let of = |at: usize| found.iter().filter(move |o| o.keyword == query[at]);
        self.count(REPEATED, query.iter().enumerate().any(|(at, k)| query[..at].contains(k)));
        self.count(TOO_EARLY, of(1).any(|o| o.offset < starts[0]));
        for at in 1..query.len() {
            let overlapping: Vec<u32> =
                of(at).map(|o| o.offset).filter(|o| *o >= starts[at - 1] && u64::from(*o) < ends[at - 1]).collect();
            let others = query[at] != query[at - 1];
            self.count(ADJACENT, u64::from(starts[at]) == ends[at - 1]);
            self.count(OVERLAP, others && overlapping.iter().any(|o| *o > starts[at - 1]));
            self.count(OWN_OVERLAP, !others && overlapping.len() > 1);
            self.count(TIE, others && overlapping.contains(&starts[at - 1]));
        }
        let last = query.len() - 1;
        self.count(LATER, of(last).any(|o| o.offset > starts[last]));
        let places = joined.files[line.file as usize].iter();
        let borders: Vec<u64> = places
            .scan(0, |end, e| {
                *end += entries[*e].size;
                Some(*end)
            })
            .collect();
        let crosses = |(start, end): (&u32, &u64)| borders.iter().any(|border| u64::from(*start) < *border && border < end);
        self.count(BORDER, starts.iter().zip(&ends).any(crosses));
        if let [.., before, _] = borders[..] {
            self.count(LAST_PLACE, ends[last] > before);
            self.count(EARLY, ends[last] <= before);
        }
    }
}

/// Numbers of any keywords and some that are none, of any length up to 10.
fn any_numbers(rng: &mut Rng, w: usize) -> Vec<u8> {
    let length = *rng.pick(&[0, 1, 2, 2, 2, 3, 3, 4, 5, 6, 7, 8, 8, 9, 10]);
    let most = if rng.percent(70) { w.max(1) } else { w + 3 };
    let same = rng.percent(25).then(|| rng.below(most));
    (0..length).map(|_| same.unwrap_or_else(|| rng.below(most)) as u8).collect()
}

/// The keywords of occurrences of one file, one behind the other: mostly each at or after the end of the one before, some overlapping it.
fn walked(rng: &mut Rng, joined: &Joined, found: &[Occurrence]) -> Vec<u8> {
    let file = rng.pick(found).file;
    let start = found.partition_point(|o| o.file < file);
    let found = &found[start..start + found[start..].partition_point(|o| o.file == file)];
    let length = *rng.pick(&[1, 2, 2, 2, 3, 3, 4, 4, 5, 6, 8, 8, 9, 10]);
    let (mut query, mut at, mut from) = (Vec::new(), rng.below(found.len().min(4)), 0);
    while query.len() < length {
        let first = at + found[at..].partition_point(|o| u64::from(o.offset) < from);
        let apart = first + if rng.percent(70) { rng.below(2) } else { rng.below(6) };
        let Some(next) = found.get(if rng.percent(88) { apart } else { at }) else { break };
        query.push(next.keyword);
        at = (apart + 1).min(found.len());
        from = u64::from(next.offset) + joined.index.keywords.words[usize::from(next.keyword)].len() as u64;
    }
    query
}

/// A query that is near to one that some file answers, or any.
fn random(rng: &mut Rng, bytes: &[u8], joined: &Result<Joined, u8>, found: &[Occurrence]) -> Vec<u8> {
    let w = usize::from(bytes.get(8).copied().unwrap_or(0).min(16));
    let mut query = match joined {
        Ok(joined) if !found.is_empty() && rng.percent(75) => walked(rng, joined, found),
        _ => return any_numbers(rng, w),
    };
    if query.is_empty() {
        return query;
    }
    let at = rng.below(query.len());
    match rng.below(12) {
        0 => query[at] = rng.below(w + 3) as u8,
        1 => query.reverse(),
        2 => query.insert(at, query[at]),
        _ => (),
    }
    query
}

impl Comparison<'_> {
    /// The case's queries, and random ones, of an index that was read, and its occurrences.
    pub fn queries(
        &mut self,
        bytes: &[u8],
        recipes: &[u8],
        joined: &Result<Joined, u8>,
        found: &[Occurrence],
        own: &[Vec<u8>],
    ) -> Verdict {
        let large = found.len() > LARGE || recipes.len() > LARGE || bytes.len() > 4 * LARGE;
        let mut queries = own.to_vec();
        for _ in 0..if large { 2 } else { 3 } {
            queries.push(random(self.rng, bytes, joined, found));
        }
        let unmade = joined.as_ref().is_ok_and(|joined| found.len() > MOST || found.is_empty() && joined.count() > 0);
        for query in queries {
            let tested = joined.as_ref().map_err(|code| *code).and_then(|joined| {
                query::test(&query, &joined.index.keywords)?;
                Ok(joined)
            });
            if unmade && tested.is_ok() {
                continue;
            }
            let want = tested.map(|joined| query::lines(&joined.index.keywords, found, &query));
            if found.len() <= MANY {
                match (joined, &want) {
                    (Ok(joined), Ok(lines)) => self.tally.queries.answered(joined, found, &query, lines),
                    (Ok(joined), Err(_)) => self.tally.queries.wrong(joined, found, &query),
                    (Err(code), _) => self.tally.queries.refused(*code, &query),
                }
            }
            self.asked(bytes, recipes, &query, &want, large).map_err(|why| format!("{why} (the query {query:?})"))?;
        }
        Ok(())
    }

    /// The number of lines, and one query in buffers of each length.
    fn asked(&mut self, bytes: &[u8], recipes: &[u8], query: &[u8], want: &Result<Vec<Line>, u8>, large: bool) -> Verdict {
        let input = Input::new(query, self.rng.below(4));
        let mut counted = Number::new(self.rng);
        let code = raw::query_count(bytes, recipes, input.get(), &mut counted.now);
        self.code("query_count", code, want.as_ref().err().copied().unwrap_or(0))?;
        let count = want.as_ref().map(|lines| lines.len() as u64).ok();
        self.told("query_count", "lines", &counted, count)?;
        self.tally.lines += count.unwrap_or(0);
        let written = want.as_ref().map(|lines| query::encode(lines)).map_err(|code| *code);
        let exact = written.as_ref().map_or(0, Vec::len);
        let mut lengths = if written.is_ok() { self.lengths(exact as u64) } else { vec![0, self.rng.below(300)] };
        lengths.truncate(if large { 2 } else { 6 });
        for length in lengths {
            let salt = self.rng.byte();
            let mut out = pattern(salt, length);
            let mut told = Number::new(self.rng);
            let code = raw::query(bytes, recipes, input.get(), &mut out, &mut told.now);
            let (want_code, front) = fits(&written, length, 18);
            self.code("query", code, want_code)?;
            self.told("query", "lines", &told, count.filter(|_| want_code == 0))?;
            self.buffer("query", &out, salt, front)?;
            self.tally.queries.count(ONE_FITS, want_code == 18 && length >= 4 + 4 * query.len());
        }
        if input.get() != query {
            return Err("query: the query was changed".into());
        }
        Ok(())
    }

    /// Queries of what the scans of two stores wrote.
    pub fn pair_queries(&mut self, pair: &Pair, indexes: [&[u8]; 2]) -> Verdict {
        // The stand-in makes the whole list for a query, which memory doesn't hold where it is that long.
        let mut occurrences = 0;
        if vault::IS_MOCK && raw::count(indexes[0], pair.recipes, &mut occurrences) == 0 && occurrences > MOST as u64 {
            return Ok(());
        }
        let query = any_numbers(self.rng, usize::from(pair.list.first().copied().unwrap_or(0)));
        let counts = indexes.map(|index| pair.number(|n| raw::query_count(index, pair.recipes, &query, n)));
        self.alike(pair.change, "query_count", counts)?;
        let exact = if counts[0].0 == 0 { counts[0].1 as usize * (4 + 4 * query.len()) } else { 50 };
        for room in [exact, exact.saturating_sub(1)] {
            let answers = indexes.map(|index| {
                let mut out = pattern(pair.salt, room);
                let (code, lines) = pair.number(|n| raw::query(index, pair.recipes, &query, &mut out, n));
                (code, (lines, out))
            });
            self.alike(pair.change, "query", answers)?;
        }
        Ok(())
    }
}

const KIND: &str = "queries by hand";

/// Every query of that length over so many keywords.
fn every(w: usize, length: u32) -> impl Iterator<Item = Vec<u8>> {
    (0..w.pow(length)).map(move |q| (0..length).map(|at| (q / w.pow(at) % w) as u8).collect())
}

/// Keywords over these chunks, files by the chunks' numbers, and queries; under each mark too.
fn asked_of(words: &[&[u8]], chunks: &[&[u8]], files: &[&[usize]], queries: Vec<Vec<u8>>) -> Vec<Case> {
    let chunks: Chunks = chunks.iter().enumerate().map(|(k, chunk)| (key(k), chunk.to_vec())).collect();
    let files: Vec<Vec<Fingerprint>> = files.iter().map(|file| file.iter().map(|k| key(*k)).collect()).collect();
    let case = Case { queries, ..case(KIND, list(false, words), &chunks, &files) };
    under_each_mark(case).collect()
}

/// The small vault, and files in which ABA and AA overlap, touch and cross.
fn papers() -> Vec<Case> {
    let files: [&[usize]; 9] =
        [&[0, 1], &[2, 2], &[], &[1, 1], &[1, 2], &[2, 1], &[0, 1, 1], &[0, 2, 1, 2, 2], &[2, 2, 2, 1, 0, 2, 1]];
    let queries = every(3, 2).chain(every(2, 3)).chain([vec![], vec![0], vec![1; 9], vec![0, 1, 0, 1, 0, 1, 0, 1]]).collect();
    asked_of(&[b"ABA", b"AA"], &[b"XAB", b"ABAX", b"A"], &files, queries)
}

/// Keywords that overlap themselves and each other, or begin each other, over chunks of one byte and longer ones.
fn overlaps() -> Vec<Case> {
    let mut cases = Vec::new();
    for words in [&[&b"AAAA"[..], b"A", b"AA"][..], &[b"AB", b"BA", b"B"], &[b"ABAB", b"BABA", b"AB"], &[b"A", b"AB", b"ABC"]] {
        let chunks: [&[u8]; 7] = [b"A", b"B", b"AB", b"AAAAAAA", b"BABABABA", b"ABCAB", b"-"];
        let files: Vec<Vec<usize>> = (7..=12)
            .map(|n| vec![0; n])
            .chain([vec![2; 5], vec![0, 1, 1, 0], vec![3], vec![3, 0], vec![4, 4], vec![5, 6, 2], vec![6, 2, 4, 0, 1]])
            .chain([vec![0, 1, 0, 6, 1, 0, 6], vec![1, 0, 1, 0, 1, 0], vec![6, 6], vec![]])
            .collect();
        let files: Vec<&[usize]> = files.iter().map(|file| &file[..]).collect();
        cases.extend(asked_of(words, &chunks, &files, every(3, 2).chain(every(3, 3)).collect()));
    }
    cases
}

/// Each length of a query from 0 to 10, over files with 0 to 10 occurrences, one a place and all in one; and numbers around w at some places.
fn lengths_and_numbers() -> Vec<Case> {
    let mut cases = Vec::new();
    let all = vec![b'x'; 10];
    let chunks: Vec<&[u8]> = [&b"x"[..], b"."].into_iter().chain((0..=10).map(|n| &all[..n]).skip(1)).collect();
    let files: Vec<Vec<usize>> = (0..=10).map(|n| [vec![0; n], vec![1]].concat()).chain((2..12).map(|k| vec![1, k])).collect();
    let files: Vec<&[usize]> = files.iter().map(|file| &file[..]).collect();
    cases.extend(asked_of(&[b"x"], &chunks, &files, (0..=10).map(|length| vec![0; length]).collect()));
    for w in [1u8, 2, 15, 16] {
        let words: Vec<Vec<u8>> = (0..w).map(|k| vec![b'a' + k]).collect();
        let text: Vec<u8> = (0..w).rev().chain(0..w).map(|k| b'a' + k).collect();
        let mut queries = Vec::new();
        for (length, number) in [2, 3, 8].into_iter().flat_map(|length| [w - 1, w, w + 1, 255].map(|number| (length, number))) {
            for at in [0, length / 2, length - 1] {
                let mut query = vec![0; length];
                query[at] = number;
                queries.push(query);
            }
        }
        let words: Vec<&[u8]> = words.iter().map(|word| &word[..]).collect();
        cases.extend(asked_of(&words, &[&text, &text[1..]], &[&[0], &[1, 0], &[0, 0, 0, 0, 0, 0, 0, 0]], queries));
    }
    cases
}

/// Queries that are complete with the last byte of a file, with the last place, and a byte or a place too late.
fn last_places() -> Vec<Case> {
    let words: &[&[u8]] = &[b"in", b"paid", b"cash"];
    let chunks: [&[u8]; 8] = [b"in", b"paid", b"cash", b"-", b"inpa", b"idca", b"sh", b"cas"];
    let files: [&[usize]; 14] = [
        &[0, 1, 2],
        &[4, 5, 6],
        &[4, 5, 7],
        &[4, 5, 6, 3],
        &[0, 3, 1, 3, 2],
        &[0, 3, 1, 3, 7],
        &[2, 1, 0],
        &[0, 2, 1, 2],
        &[0, 0, 1, 1, 2, 2],
        &[3, 3, 4, 5, 6, 0, 1],
        &[0, 1],
        &[2],
        &[2, 0, 1],
        &[0, 1, 2, 3, 3, 3],
    ];
    let more = [vec![0, 1, 2, 0, 1], vec![0, 0, 1, 1, 2, 2], vec![2, 0, 1, 2]];
    asked_of(words, &chunks, &files, every(3, 2).chain(every(3, 3)).chain(more).collect())
}

/// Each fault of an index and of recipes beside queries of each kind of fault.
fn order_of_tests() -> Vec<Case> {
    let words = list(false, &[b"ABA", b"AA"]);
    let (a, b, c, absent) = ([1; 20], [2; 20], [3; 20], [9; 20]);
    let whole = recipes::encode(&[vec![b, b], vec![b]]);
    let all = [
        vec![],
        whole[..whole.len() - 1].to_vec(),
        [&whole[..], &[0]].concat(),
        recipes::encode(&[vec![b, b], vec![absent]]),
        recipes::encode(&[vec![b, b], vec![a, c, b]]),
        recipes::encode(&[vec![a, c, b], vec![absent]]),
        recipes::encode(&[vec![absent], vec![a, c, b]]),
        whole.clone(),
    ];
    let queries = vec![vec![], vec![0], vec![0; 9], vec![0, 2], vec![2, 0], vec![0, 0], vec![1, 1]];
    let mut cases = Vec::new();
    for (form, recipes) in KNOWN.iter().flat_map(|form| all.iter().map(move |recipes| (form, recipes))) {
        let case = Case { recipes: recipes.clone(), queries: queries.clone(), ..case(KIND, words.clone(), &small_chunks(), &[]) };
        let Some(index) = crate::inputs::scanned_in(form, &case) else { continue };
        let spoiled = |at: usize, byte: u8| {
            let mut index = index.clone();
            index[at] = byte;
            index
        };
        let twins = [&index[..49], &[1; 20], &index[69..]].concat();
        let indexes = [
            index[..7].to_vec(),
            spoiled(2, b'9'),
            index[..9].to_vec(),
            spoiled(8, 0),
            spoiled(10, 0),
            index[..index.len() - 1].to_vec(),
            twins,
            spoiled(113, 9),
            index.clone(),
        ];
        cases.extend(indexes.into_iter().map(|index| Case { index: Some(index), ..case.clone() }));
    }
    cases
}

/// Offsets and file numbers that take a byte more, in lines one after the other.
fn carries() -> Vec<Case> {
    let mut cases = Vec::new();
    for before in [253, 254, 255, 256, 65_533, 65_535, 65_536] {
        let text = vec![b'.'; before];
        let files: [&[usize]; 4] = [&[0, 1], &[1], &[1, 0, 2], &[0, 1, 0, 1, 2]];
        cases.extend(asked_of(&[b"AB", b"C"], &[&text, b"ABC", b"CAB"], &files, every(2, 2).chain(every(2, 3)).collect()));
    }
    let files: Vec<&[usize]> = (0..300).map(|f| if f % 3 == 0 { &[1][..] } else { &[0, 0][..] }).collect();
    cases.extend(asked_of(&[b"A", b"B"], &[b"AB", b"A"], &files, every(2, 2).collect()));
    cases
}

/// The cases by hand.
pub fn by_hand() -> Vec<Case> {
    [papers(), overlaps(), lengths_and_numbers(), last_places(), order_of_tests(), carries()].concat()
}

/// 65,535 files that all have a line, or every second one; a file of 4,294,967,295 bytes that is complete with its last byte, and one of a byte more;
/// hundreds of thousands of occurrences between the ones that are chosen.
pub fn large(_: &mut Rng) -> Vec<Case> {
    let kind = "large queries";
    let two: Chunks = vec![(key(0), b"xAAB".to_vec()), (key(1), b"BA".to_vec())];
    let files: Vec<Vec<Fingerprint>> = (0..65_535).map(|f| vec![key(0); 1 + f % 2]).collect();
    let others: Vec<Vec<Fingerprint>> = (0..65_535).map(|f| vec![key((f / 7) % 2)]).collect();
    let mut cases = Vec::new();
    for files in [&files, &others] {
        let queries = vec![vec![0, 1], vec![1, 0], vec![0; 8], vec![0; 9], vec![0, 2]];
        cases.push(Case { queries, ..case(kind, list(false, &[b"A", b"B"]), &two, files) });
    }
    for form in &KNOWN {
        let longest = longest_file(kind, form);
        // A place more is 16, before 21.
        let queries = vec![vec![0], vec![0; 9], vec![0, 2], vec![0, 1]];
        let recipes = recipes::encode(&[vec![], vec![key(4); 65_538]]);
        cases.extend([Case { recipes, queries, ..longest.clone() }, longest]);
    }
    let many: Chunks = vec![(key(0), b"B".to_vec()), (key(1), vec![b'A'; 200_000]), (key(2), b"C".to_vec())];
    let files = [vec![key(0), key(1), key(1), key(2)], vec![key(1), key(0), key(2)], vec![key(2), key(1), key(1), key(0)]];
    let queries = vec![vec![0, 2], vec![1, 1, 1], vec![2, 0, 1], vec![0, 1, 2], vec![1; 8], vec![2, 1, 0]];
    cases.push(Case { queries, ..case(kind, list(false, &[b"B", b"AAA", b"C"]), &many, &files) });
    cases
}

/// Made-up records: an occurrence of ABx in the first chunk and of xAB in the last one, of which the file has as many as it may.
fn longest_file(kind: &'static str, form: &Form) -> Case {
    let words = list(false, &[b"ABx", b"xAB"]);
    let (size, places) = (65_535, 65_537);
    let bodies = [(0, 0), (0, 65_532), (1, 0), (1, 65_532)].map(|(k, at)| {
        let record = Record { offsets: vec![at], ..Record::default() };
        record.encode(form, k)
    });
    let mut entries: Vec<(Fingerprint, u64, Vec<u8>)> =
        bodies.into_iter().enumerate().map(|(k, body)| (key(k), size, body)).collect();
    entries.push((key(4), size, vec![]));
    let file = |first: usize, last: usize| {
        let mut file = vec![key(4); places];
        (file[0], file[places - 1]) = (key(first), key(last));
        file
    };
    let files = [file(0, 3), file(3, 1), file(1, 2), file(4, 1)];
    let queries = vec![vec![0, 1], vec![1, 0], vec![0, 0], vec![1, 1, 1]];
    Case { index: Some(index::encode(form, &words, &entries)), queries, ..case(kind, words, &small_chunks(), &files) }
}

#[cfg(test)]
mod tests {
    use super::*;

    /// What queries of these cases come upon, random ones too where they are asked for.
    fn reached(cases: &[Case], random_ones: usize) -> Reached {
        let mut reached = Reached::default();
        let mut rng = Rng::of_case(109, 0);
        for case in cases {
            let Some(bytes) = case.index.clone().or_else(|| crate::inputs::scanned_in(&FORM3, case)) else { continue };
            let read = index::read(&bytes);
            let joined = read.as_ref().map_err(|code| *code).and_then(|read| Joined::new(read, &case.recipes));
            let found = joined.as_ref().map_or(vec![], Joined::list);
            let mut queries = case.queries.clone();
            (0..random_ones).for_each(|_| queries.push(random(&mut rng, &bytes, &joined, &found)));
            for query in queries {
                let Ok(joined) = &joined else {
                    reached.refused(joined.as_ref().err().copied().unwrap_or(0), &query);
                    continue;
                };
                match query::test(&query, &joined.index.keywords) {
                    Ok(()) => reached.answered(joined, &found, &query, &query::lines(&joined.index.keywords, &found, &query)),
                    Err(_) => reached.wrong(joined, &found, &query),
                }
            }
        }
        reached
    }

    /// But for 18, which is a buffer's, and 16, which large cases have.
    const ELSEWHERE: [&str; 2] = [ONE_FITS, AFTER_16];

    #[test]
    fn the_cases_by_hand_come_upon_all() {
        let mut missing = reached(&by_hand(), 0).missing(&ALL);
        missing.retain(|what| !ELSEWHERE.contains(&what.as_str()));
        assert_eq!(missing, [""; 0]);
    }

    #[test]
    fn random_ones_come_upon_all() {
        let cases: Vec<Case> = (0..2_000)
            .map(|number| {
                let mut rng = Rng::of_case(11, number);
                let (case, _, _) = crate::inputs::vault(&mut rng, "vaults");
                Case { index: crate::inputs::scanned(&mut rng, &case), ..case }
            })
            .collect();
        let mut missing = reached(&cases, 3).missing(&ALL);
        missing.retain(|what| !ELSEWHERE.contains(&what.as_str()) && ![AFTER_14, AFTER_INDEX].contains(&what.as_str()));
        assert_eq!(missing, [""; 0]);
    }

    /// Of the queries that are made at random, a good part has lines, and a good part is refused.
    #[test]
    fn random_queries() {
        let (mut lines, mut none, mut wrong) = (0, 0, 0);
        for number in 0..500 {
            let mut rng = Rng::of_case(12, number);
            let (case, _, _) = crate::inputs::vault(&mut rng, "vaults");
            let bytes = crate::inputs::scanned_in(&FORM3, &case).unwrap();
            let read = index::read(&bytes).unwrap();
            let joined = Joined::new(&read, &case.recipes);
            let found = joined.as_ref().map_or(vec![], Joined::list);
            let query = random(&mut rng, &bytes, &joined, &found);
            match query::test(&query, &read.keywords) {
                Err(_) => wrong += 1,
                Ok(()) if query::lines(&read.keywords, &found, &query).is_empty() => none += 1,
                Ok(()) => lines += 1,
            }
        }
        assert!(lines > 150 && none > 50 && wrong > 50, "{lines} {none} {wrong}");
    }
}
