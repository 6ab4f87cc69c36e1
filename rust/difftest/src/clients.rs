//! Keys and tallies (request 110): what joins and searches are lent beside their buffers, what the oracle says that becomes of it, and joins into one
//! tally. Each client's count is compared after every call, with what it was before where the call is refused.

use crate::compare::{fits, pattern, Bytes, Comparison, Input, Number, Verdict};
use crate::fixed::{case, key as fingerprint, small_chunks, Chunks};
use crate::inputs::{list, scanned_in, Case};
use crate::reached::Reached;
use crate::rng::Rng;
use oracle::clients::{counts, sums, test, Counts};
use oracle::form::{FORM1, FORM2};
use oracle::join::Occurrence;
use oracle::keywords::Keywords;
use vault::raw;

/// The largest count.
const MOST: u64 = u64::MAX;

/// Occurrences, and bytes of recipes, from which on a case has fewer joins.
const LARGE: usize = 10_000;

const FOUR: &str = "occurrences of all four clients";
const IGNORED: &str = "a client above 3 behind the last keyword";
const SIXTEEN: &str = "a key of 16 keywords";
const LENGTH_0: &str = "22 for 0 bytes";
const LENGTH_15: &str = "22 for 15 bytes";
const LENGTH_17: &str = "22 for 17 bytes";
const LENGTH_OTHER: &str = "22 for another length";
const CLIENT_4: &str = "22 for client 4";
const CLIENT_255: &str = "22 for client 255";
const LAST: &str = "22 for the last keyword alone";
const ABSENT: &str = "22 for a keyword that does not occur";
const EMPTY: &str = "22 for an empty list";
const AFTER_INDEX: &str = "the index's numbers before 22";
const AFTER_RECIPES: &str = "14 to 17 before 22";
const KEY_AFTER_18: &str = "18 before 22";
const TALLY_AFTER_18: &str = "18 before 23";
const KEY_FIRST: &str = "22 before 23";
const EXACT: &str = "the largest count reached";
const FULL: &str = "a full count of a client without occurrences";
const FULL_EMPTY: &str = "an empty list with four full counts";
const CARRY: &str = "a sum that passes 32 bits";
const ONE_OVER: &str = "23 by one";
const ALONE: [&str; 4] = ["23 of client 0 alone", "23 of client 1 alone", "23 of client 2 alone", "23 of client 3 alone"];
const REFUSED_WHOLE: &str = "a refusal that would add to three clients";
const BETWEEN: &str = "a refused join between two accepted ones, into one tally";
const TWO_KEYS: &str = "accepted joins with two keys into one tally";
const PAIR_ADDS: &str = "two searches that add";
const PAIR_22: &str = "two searches with 22";
const PAIR_23: &str = "two searches with 23";

/// What keys and tallies have to come upon.
pub const ALL: [&str; 32] = [
    FOUR,
    IGNORED,
    SIXTEEN,
    LENGTH_0,
    LENGTH_15,
    LENGTH_17,
    LENGTH_OTHER,
    CLIENT_4,
    CLIENT_255,
    LAST,
    ABSENT,
    EMPTY,
    AFTER_INDEX,
    AFTER_RECIPES,
    KEY_AFTER_18,
    TALLY_AFTER_18,
    KEY_FIRST,
    EXACT,
    FULL,
    FULL_EMPTY,
    CARRY,
    ONE_OVER,
    ALONE[0],
    ALONE[1],
    ALONE[2],
    ALONE[3],
    REFUSED_WHOLE,
    BETWEEN,
    TWO_KEYS,
    PAIR_ADDS,
    PAIR_22,
    PAIR_23,
];

/// What a join is lent beside its buffer: the key, and the tally as it is before.
#[derive(Clone, Debug, PartialEq)]
pub struct Lent {
    pub key: Vec<u8>,
    pub before: Counts,
}

/// The keywords of an index or a list and its occurrences, where they are known.
#[derive(Clone, Copy)]
pub struct Listed<'a> {
    keywords: Option<&'a Keywords>,
    found: &'a [Occurrence],
    /// The occurrences of each keyword.
    of: Counted,
}

/// Occurrences by keyword number.
type Counted = [u64; 16];

impl<'a> Listed<'a> {
    pub fn new(keywords: Option<&'a Keywords>, found: &'a [Occurrence]) -> Listed<'a> {
        let mut of = [0; 16];
        found.iter().for_each(|find| of[usize::from(find.keyword)] += 1);
        Listed { keywords, found, of }
    }

    /// The keyword count; of what isn't good, none.
    fn words(&self) -> usize {
        self.keywords.map_or(0, |keywords| keywords.words.len())
    }

    /// Each client's occurrences, by a good key: the sums over his keywords.
    fn counts(&self, key: &[u8]) -> Counts {
        let of = |client: usize| (0..self.words()).filter(|k| usize::from(key[*k]) == client).map(|k| self.of[k]).sum();
        std::array::from_fn(of)
    }

    /// The same, and where the list isn't large whether the oracle, which goes along it, counts as many.
    fn oracles_counts(&self, key: &[u8]) -> Result<Counts, String> {
        let sums = self.counts(key);
        match self.found.len() > LARGE || counts(key, self.found) == sums {
            true => Ok(sums),
            false => Err("the oracle's counts by occurrence and by keyword differ (a fault of the oracle)".into()),
        }
    }
}

/// A key that is good for so many keywords; what is behind them is anything.
fn good_key(rng: &mut Rng, words: usize) -> Vec<u8> {
    let (first, clients) = (rng.below(4), *rng.pick(&[1, 2, 3, 4, 4, 4]));
    let behind = rng.below(3);
    let mut entry = |k: usize| match behind {
        _ if k < words => ((first + rng.below(clients)) % 4) as u8,
        0 => 0xFF,
        1 => rng.below(4) as u8,
        _ => rng.byte(),
    };
    (0..16).map(&mut entry).collect()
}

/// A key that is refused where there are so many keywords.
fn bad_key(rng: &mut Rng, words: usize) -> Vec<u8> {
    let mut key = good_key(rng, words);
    match rng.below(8) {
        0 => key.clear(),
        1 => key.truncate(15),
        2 => key.push(rng.below(4) as u8),
        3 => key.resize(*rng.pick(&[1, 8, 14, 18, 20, 32, 33, 300]), 0),
        4 if words > 0 => key[words - 1] = *rng.pick(&[4, 255]),
        5 => key[..words.max(1)].fill(4),
        _ => key[rng.below(words)] = *rng.pick(&[4, 4, 5, 6, 8, 16, 128, 252, 255, 255]),
    }
    key
}

/// Counts to which these can be added.
fn with_room(rng: &mut Rng, counts: &Counts) -> Counts {
    let kind = rng.below(6);
    counts.map(|count| match if kind == 5 { rng.below(5) } else { kind } {
        0 => 0,
        1 => rng.next().min(MOST - count),
        2 => (rng.next() >> rng.below(64)).min(MOST - count),
        3 => 4_294_967_295 - (rng.below(3) as u64).min(count),
        _ => MOST - count,
    })
}

/// Counts to which these can't be added, if there are any: one client or more has too little room, mostly by one.
fn without_room(rng: &mut Rng, counts: &Counts) -> Counts {
    let mut before = with_room(rng, counts);
    let occurring: Vec<usize> = (0..4).filter(|client| counts[*client] > 0).collect();
    for _ in 0..if rng.percent(70) { 1 } else { 3 } {
        if let Some(client) = occurring.get(rng.below(occurring.len())) {
            let room = if rng.percent(60) { counts[*client] - 1 } else { rng.next() % counts[*client] };
            before[*client] = MOST - room;
        }
    }
    before
}

/// A good key and a tally with room: what every list that fits is accepted with.
pub fn accepted(rng: &mut Rng, listed: Listed) -> Lent {
    let key = good_key(rng, listed.words());
    let before = with_room(rng, &listed.counts(&key));
    Lent { key, before }
}

/// A key and a tally of which mostly one is refused.
pub fn any(rng: &mut Rng, listed: Listed) -> Lent {
    let good = accepted(rng, listed);
    match rng.below(10) {
        0..=1 => good,
        2..=5 => {
            let before = without_room(rng, &listed.counts(&good.key));
            Lent { before, ..good }
        }
        6 => Lent { key: bad_key(rng, listed.words()), before: [MOST; 4] },
        _ => Lent { key: bad_key(rng, listed.words()), ..good },
    }
}

/// The keyword count that a list says.
pub fn words_of(list: &[u8]) -> usize {
    usize::from(list.first().copied().unwrap_or(0))
}

/// The same where the occurrences aren't known.
pub fn blind(rng: &mut Rng, words: usize) -> Lent {
    let key = if rng.percent(88) { good_key(rng, words.min(16)) } else { bad_key(rng, words.min(16)) };
    let near = rng.percent(15);
    Lent { key, before: [0; 4].map(|_| if near { MOST - rng.below(6) as u64 } else { rng.next() >> (1 + rng.below(63)) }) }
}

impl Reached {
    /// What a join comes upon whose tests before the key's answer that number.
    fn refused_before(&mut self, code: u8, listed: Listed, lent: &Lent) {
        let bad = lent.key.len() != 16 || listed.keywords.is_some_and(|keywords| test(&lent.key, keywords).is_err());
        let over = !bad && code == 18 && sums(&lent.before, &listed.counts(&lent.key)).is_err();
        self.count(AFTER_INDEX, bad && !(14..=18).contains(&code));
        self.count(AFTER_RECIPES, bad && (14..=17).contains(&code));
        self.count(KEY_AFTER_18, bad && code == 18);
        self.count(TALLY_AFTER_18, over);
    }

    /// What one comes upon that is refused for its key.
    fn key_refused(&mut self, listed: Listed, lent: &Lent) {
        for (what, met) in [
            (LENGTH_0, lent.key.is_empty()),
            (LENGTH_15, lent.key.len() == 15),
            (LENGTH_17, lent.key.len() == 17),
            (LENGTH_OTHER, ![0, 15, 16, 17].contains(&lent.key.len())),
            (EMPTY, listed.found.is_empty()),
            (KEY_FIRST, lent.before == [MOST; 4] && !listed.found.is_empty()),
        ] {
            self.count(what, met);
        }
        if lent.key.len() == 16 {
            let named = &lent.key[..listed.words()];
            let wrong: Vec<usize> = (0..named.len()).filter(|k| named[*k] > 3).collect();
            let occurs = |k: &usize| listed.of[*k] > 0;
            self.count(CLIENT_4, wrong.iter().all(|k| named[*k] == 4));
            self.count(CLIENT_255, wrong.iter().all(|k| named[*k] == 255));
            self.count(LAST, wrong[..] == [named.len() - 1]);
            self.count(ABSENT, !listed.found.is_empty() && !wrong.iter().any(occurs));
        }
    }

    /// What one comes upon whose key is good, with what it has to add.
    fn key_taken(&mut self, listed: Listed, lent: &Lent) {
        let counts = listed.counts(&lent.key);
        let room = |client: &usize| MOST - lent.before[*client];
        let over: Vec<usize> = (0..4).filter(|client| counts[*client] > room(client)).collect();
        self.count(IGNORED, lent.key[listed.words()..].iter().any(|client| *client > 3));
        self.count(SIXTEEN, listed.words() == 16);
        if let [client] = over[..] {
            self.count(ALONE[client], true);
            self.count(ONE_OVER, counts[client] - 1 == room(&client));
        }
        self.count(REFUSED_WHOLE, over.len() == 1 && counts.iter().all(|count| *count > 0));
        let met = |what: &dyn Fn(usize) -> bool| over.is_empty() && (0..4).any(what);
        self.count(FOUR, over.is_empty() && counts.iter().all(|count| *count > 0));
        self.count(EXACT, met(&|client| counts[client] > 0 && counts[client] == room(&client)));
        self.count(FULL, met(&|client| counts[client] == 0 && room(&client) == 0 && !listed.found.is_empty()));
        self.count(FULL_EMPTY, listed.found.is_empty() && lent.before == [MOST; 4]);
        self.count(
            CARRY,
            met(&|client| lent.before[client] <= oracle::U32 && lent.before[client] + counts[client] > oracle::U32),
        );
    }
}

impl Comparison<'_> {
    /// Code and counts after a join whose tests before the key's answer that number, by the oracle.
    pub fn charged(&mut self, code: u8, listed: Listed, lent: &Lent) -> Result<(u8, Counts), String> {
        let reached = &mut self.tally.clients;
        let (0, Some(keywords)) = (code, listed.keywords) else {
            reached.refused_before(code, listed, lent);
            return Ok((code, lent.before));
        };
        if let Err(code) = test(&lent.key, keywords) {
            reached.key_refused(listed, lent);
            return Ok((code, lent.before));
        }
        reached.key_taken(listed, lent);
        match sums(&lent.before, &listed.oracles_counts(&lent.key)?) {
            Ok(after) => Ok((0, after)),
            Err(code) => Ok((code, lent.before)),
        }
    }

    /// A tally after a call.
    pub fn counts(&mut self, call: &'static str, got: &Counts, lent: &Lent, (code, want): (u8, Counts)) -> Verdict {
        match got == &want {
            true => Ok(()),
            false if code != 0 => Err(format!("{call}: a refusal changed the tally {:?} to {got:?}", lent.before)),
            false => Err(format!("{call}: the tally {:?} became {got:?}, the oracle says {want:?}", lent.before)),
        }
    }

    /// Joins of an index, in list buffers of these lengths: each length with a key and a tally that are accepted, then some with any.
    pub fn lists(
        &mut self,
        bytes: &[u8],
        recipes: &[u8],
        listed: Listed,
        rows: &Bytes,
        (lengths, own): (Vec<usize>, &[Lent]),
    ) -> Verdict {
        let exact = lengths.first().copied().unwrap_or(0);
        let mut tries: Vec<(usize, Lent)> = lengths.into_iter().map(|length| (length, accepted(self.rng, listed))).collect();
        tries.extend(own.iter().flat_map(|lent| [(exact, lent.clone()), (exact.saturating_sub(1), lent.clone())]));
        let more = if exact > 9 * LARGE || recipes.len() > LARGE { 1 } else { 4 };
        for k in 0..more {
            tries.push((if k == 3 { exact.saturating_sub(1) } else { exact + k }, any(self.rng, listed)));
        }
        for (length, lent) in tries {
            self.joined(bytes, recipes, listed, rows, (length, &lent)).map_err(|why| format!("{why} ({lent:?})"))?;
        }
        self.bill(bytes, recipes, listed, rows)
    }

    /// One join beside the oracle.
    fn joined(&mut self, bytes: &[u8], recipes: &[u8], listed: Listed, rows: &Bytes, (length, lent): (usize, &Lent)) -> Verdict {
        let salt = self.rng.byte();
        let (mut out, mut counted, mut after) = (pattern(salt, length), Number::new(self.rng), lent.before);
        let key = Input::new(&lent.key, self.rng.below(4));
        let code = raw::join(bytes, recipes, key.get(), &mut out, &mut counted.now, &mut after);
        let (earlier, front) = fits(rows, length, 18);
        let want = self.charged(earlier, listed, lent)?;
        let front = if want.0 == 0 { front } else { &[] };
        self.code("join", code, want.0)?;
        self.told("join", "count", &counted, (want.0 == 0).then_some(front.len() as u64 / 9))?;
        self.buffer("join", &out, salt, front)?;
        self.counts("join", &after, lent, want)?;
        match key.get() == lent.key {
            true => Ok(()),
            false => Err("join: the key was changed".into()),
        }
    }

    /// Joins into one tally that began at zero and that only they write. After each of them every client's count is the number of occurrences of its
    /// keywords in the lists of those accepted: as the oracle has these lists, and as the library itself wrote them.
    fn bill(&mut self, bytes: &[u8], recipes: &[u8], listed: Listed, rows: &Bytes) -> Verdict {
        if listed.found.len() > LARGE || recipes.len() > LARGE || bytes.len() > 4 * LARGE {
            return Ok(());
        }
        let exact = rows.as_ref().map_or(0, Vec::len);
        let (mut tally, mut own, mut oracles) = ([0; 4], [0; 4], [0; 4]);
        let (mut keys, mut order) = (Vec::new(), Vec::new());
        for _ in 0..self.rng.range(2, 6) {
            let key = if self.rng.percent(75) { good_key(self.rng, listed.words()) } else { bad_key(self.rng, listed.words()) };
            let room = if self.rng.percent(80) { exact + self.rng.below(20) } else { self.rng.below(exact.max(1)) };
            let whole = if self.rng.percent(92) { recipes } else { &recipes[..self.rng.below(recipes.len())] };
            let [mut out, mut oracles_out] = [vec![0; room], vec![0; room]];
            let (mut count, mut oracles_count) = (0, 0);
            let code = raw::join(bytes, whole, &key, &mut out, &mut count, &mut tally);
            let want = oracle::calls::join(bytes, whole, &key, &mut oracles_out, &mut oracles_count, &mut oracles);
            if (code, count, &out) != (want, oracles_count, &oracles_out) {
                return Err(format!("join: code {code}, the oracle says {want}, or another list, into a tally of several joins"));
            }
            // By the list that the library itself wrote.
            vault::occurrences(&out[..9 * count as usize]).for_each(|o| own[usize::from(key[usize::from(o.keyword)])] += 1);
            if tally != own || tally != oracles {
                return Err(format!("join: a tally from zero is {tally:?}; its lists have {own:?}, the oracle says {oracles:?}"));
            }
            order.push(code == 0);
            if code == 0 && !keys.contains(&key) {
                keys.push(key);
            }
        }
        let first = order.iter().position(|done| *done).unwrap_or(order.len());
        let last = order.iter().rposition(|done| *done).unwrap_or(0);
        self.tally.clients.count(BETWEEN, listed.words() > 0 && (first..last).any(|k| !order[k]));
        self.tally.clients.count(TWO_KEYS, keys.len() > 1 && own.iter().any(|count| *count > 0));
        Ok(())
    }

    /// What two joins or searches come upon that are compared with each other.
    pub fn pair_lent(&mut self, code: u8, lent: &Lent, after: &Counts) {
        self.tally.clients.count(PAIR_ADDS, lent.before != *after);
        self.tally.clients.count(PAIR_22, code == 22);
        self.tally.clients.count(PAIR_23, code == 23);
    }
}

const KIND: &str = "keys and tallies by hand";

/// Key and tally for two keywords; behind them are clients that there aren't.
fn lent(clients: [u8; 2], before: Counts) -> Lent {
    Lent { key: [&clients[..], &[0xFF; 14]].concat(), before }
}

/// Keys of every length, with every client at every place, and with all four counts full.
fn every_key() -> Vec<Lent> {
    let mut lents: Vec<Lent> = (0..=34).map(|length| Lent { key: vec![1; length], before: [5; 4] }).collect();
    for (at, client) in (0..16).flat_map(|at| [0, 1, 2, 3, 4, 5, 8, 127, 128, 252, 255].map(|client| (at, client))) {
        let mut key = vec![2; 16];
        key[at] = client;
        lents.push(Lent { key, before: [0; 4] });
    }
    lents.extend([vec![4; 16], vec![0; 15], vec![0; 17], vec![]].map(|key| Lent { key, before: [MOST; 4] }));
    lents
}

/// Every two clients of two keywords that occur so often, with each count exact, by one over, full and empty.
fn every_tally([a, b]: [u64; 2]) -> Vec<Lent> {
    let mut lents = Vec::new();
    for clients in (0..16).map(|k| [k / 4, k % 4]) {
        let mut added = [0; 4];
        added[usize::from(clients[0])] += a;
        added[usize::from(clients[1])] += b;
        let exact = added.map(|count| MOST - count);
        lents.extend(
            [[0; 4], [1, 2, 3, 4], exact, [MOST; 4], added.map(|count| 4_294_967_295 - count / 2)]
                .map(|before| lent(clients, before)),
        );
        for client in 0..4 {
            let (mut over, mut alone) = (exact, [7; 4]);
            over[client] = exact[client].saturating_add(1);
            alone[client] = over[client];
            lents.extend([lent(clients, over), lent(clients, alone)]);
        }
    }
    lents
}

/// A letter for each keyword, in a chunk so often as its number says, twice where it is the first: and one that has none.
fn sixteen() -> Case {
    let words: Vec<Vec<u8>> = (0..16).map(|k| vec![b'A' + k]).collect();
    let chunk: Vec<u8> = (0..15u8).flat_map(|k| vec![b'A' + k; usize::from(k.max(2))]).collect();
    let chunks: Chunks = vec![(fingerprint(0), chunk)];
    let words: Vec<&[u8]> = words.iter().map(|word| &word[..]).collect();
    let mut lents = every_key();
    lents.push(Lent { key: (0..16).map(|k| k % 4).collect(), before: [1, 10, 100, 1_000] });
    lents.push(Lent { key: (0..16).map(|k| k % 4).collect(), before: [MOST - 26, MOST - 29, MOST - 26, MOST - 21] });
    Case { lents, ..case(KIND, list(false, &words), &chunks, &[vec![fingerprint(0)]]) }
}

/// The cases by hand.
pub fn by_hand() -> Vec<Case> {
    let (a, b, c) = ([1; 20], [2; 20], [3; 20]);
    let words = list(false, &[b"ABA", b"AA"]);
    let with = |lents: Vec<Lent>, files: &[Vec<_>]| Case { lents, ..case(KIND, words.clone(), &small_chunks(), files) };
    let small = [vec![a, b], vec![c, c], vec![]];
    let whole = with([every_key(), every_tally([2, 1])].concat(), &small);
    let mut cases = vec![
        // The second keyword doesn't occur; none does; there are no files.
        with([every_key(), every_tally([2, 0])].concat(), &[vec![a, b]]),
        with([every_key(), every_tally([0, 0])].concat(), &[vec![c], vec![a]]),
        with(every_key(), &[]),
        with(every_tally([1, 7]), &[vec![c; 8], vec![b]]),
        sixteen(),
    ];
    // Under the older marks, and with the numbers that come before: 17, 15, 14, the index's.
    for form in [FORM1, FORM2] {
        let index = scanned_in(&form, &whole);
        cases.push(Case { index: index.clone(), ..whole.clone() });
        cases.push(Case { index, ..with(every_key(), &[vec![a, c, b]]) });
    }
    cases.push(with(every_key(), &[vec![a, [9; 20]]]));
    cases.push(Case { recipes: vec![1, 0, 0], ..with(every_key(), &[]) });
    cases.push(Case { index: Some(b"DM3\n".to_vec()), ..whole.clone() });
    cases.push(whole);
    cases
}

/// The occurrences of a case, for the tests here.
#[cfg(test)]
fn found_in(case: &Case) -> Option<(Keywords, Vec<Occurrence>)> {
    let bytes = case.index.clone().or_else(|| scanned_in(&oracle::form::NEWEST, case))?;
    let index = oracle::index::read(&bytes).ok()?;
    let found = oracle::join::Joined::new(&index, &case.recipes).ok()?.list();
    Some((index.keywords, found))
}

#[cfg(test)]
mod tests {
    use super::*;
    use crate::compare::{Tally, USUAL};

    /// Those that only a buffer, recipes, a list of joins or a pair of stores come upon.
    const ELSEWHERE: [&str; 9] =
        [AFTER_INDEX, AFTER_RECIPES, KEY_AFTER_18, TALLY_AFTER_18, BETWEEN, TWO_KEYS, PAIR_ADDS, PAIR_22, PAIR_23];

    fn reached(cases: &[Case], more: usize) -> Vec<String> {
        let mut tally = Tally::default();
        let mut rng = Rng::of_case(110, 0);
        for case in cases {
            let Some((keywords, found)) = found_in(case) else { continue };
            let listed = Listed::new(Some(&keywords), &found);
            let mut lents = case.lents.clone();
            (0..more).for_each(|k| lents.push(if k % 2 == 0 { any(&mut rng, listed) } else { accepted(&mut rng, listed) }));
            let mut comparison = Comparison { tally: &mut tally, rng: &mut rng, limits: &USUAL };
            for lent in &lents {
                comparison.charged(0, listed, lent).unwrap();
            }
        }
        let mut missing = tally.clients.missing(&ALL);
        missing.retain(|what| !ELSEWHERE.contains(&what.as_str()));
        missing
    }

    #[test]
    fn the_cases_by_hand_come_upon_all() {
        assert_eq!(reached(&by_hand(), 0), [""; 0]);
    }

    #[test]
    fn random_ones_come_upon_all() {
        let cases: Vec<Case> = (0..3_000).map(|number| crate::inputs::vault(&mut Rng::of_case(13, number), "vaults").0).collect();
        assert_eq!(reached(&cases, 4), [""; 0]);
    }

    /// Every key and tally that is made to be accepted is; of the others a good part is refused with each number.
    #[test]
    fn what_is_lent() {
        let mut codes = [0; 24];
        for number in 0..2_000 {
            let mut rng = Rng::of_case(14, number);
            let (case, _, _) = crate::inputs::vault(&mut rng, "vaults");
            let Some((keywords, found)) = found_in(&case) else { continue };
            let listed = Listed::new(Some(&keywords), &found);
            let code = |lent: &Lent| {
                let tested = test(&lent.key, &keywords).and_then(|()| sums(&lent.before, &counts(&lent.key, &found)));
                tested.err().unwrap_or(0)
            };
            assert_eq!(code(&accepted(&mut rng, listed)), 0);
            codes[usize::from(code(&any(&mut rng, listed)))] += 1;
        }
        assert!(codes[0] > 200 && codes[22] > 400 && codes[23] > 300, "{codes:?}");
    }
}
