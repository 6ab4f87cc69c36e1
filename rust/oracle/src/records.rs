//! Document 01, "Notes on one chunk and one word" and the bodies of "Notes file", with request 108's sets of inner starts.

use crate::form::Form;
use crate::keywords::{alike, Keywords};
use std::ops::Range;

/// The kind of a set of inner starts.
pub const SET: usize = 4;

/// What is noted of one chunk and one keyword.
#[derive(Clone, Debug, Default, PartialEq, Eq)]
pub struct Record {
    pub prefix: usize,
    pub suffix: usize,
    /// The finds, rising.
    pub offsets: Vec<usize>,
    /// The set of inner starts: bit p where the whole chunk stands in the word from p on, at neither of its ends.
    pub inner: u32,
}

/// The largest prefix or suffix: the smaller of n - 1 and L.
pub fn reach(n: usize, size: usize) -> usize {
    (n - 1).min(size)
}

/// The starts that a set may have: 1 to n - 1 - L, so none where L is above n - 2.
pub fn inner_starts(n: usize, size: usize) -> Range<usize> {
    1..n.saturating_sub(size)
}

/// The set of these starts: bit p, worth 2 to the p, for start p.
pub fn set_of(starts: impl Iterator<Item = usize>) -> u32 {
    starts.map(|p| 1 << p).sum()
}

/// The record of a chunk and a keyword.
pub fn record_of(fold: bool, word: &[u8], chunk: &[u8]) -> Record {
    let (n, size) = (word.len(), chunk.len());
    let ends_with = |i: &usize| alike(fold, &chunk[size - i..], &word[..*i]);
    let starts_with = |j: &usize| alike(fold, &chunk[..*j], &word[n - j..]);
    let lengths = 0..=reach(n, size);
    Record {
        prefix: lengths.clone().rev().find(ends_with).unwrap_or(0),
        suffix: lengths.rev().find(starts_with).unwrap_or(0),
        offsets: (0..size).filter(|at| crate::keywords::stands_at(fold, word, chunk, *at)).collect(),
        inner: set_of(inner_starts(n, size).filter(|p| alike(fold, chunk, &word[*p..p + size]))),
    }
}

/// A record for each keyword.
pub fn records_of(keywords: &Keywords, chunk: &[u8]) -> Vec<Record> {
    keywords.words.iter().map(|word| record_of(keywords.fold, word, chunk)).collect()
}

impl Record {
    /// Whether the keyword has no record but perhaps a set.
    pub fn is_empty(&self) -> bool {
        self.prefix == 0 && self.suffix == 0 && self.offsets.is_empty()
    }

    pub fn is_tiny(&self) -> bool {
        !self.is_empty() && self.offsets.is_empty() && self.prefix <= 1 && self.suffix <= 1
    }

    /// The bytes of keyword k's record in that form, then of its set, where the form has sets: none of either if it is empty.
    pub fn encode(&self, form: &Form, k: usize) -> Vec<u8> {
        let mut bytes = self.encode_ends_and_offsets(form, k);
        if form.sets && self.inner != 0 {
            bytes.extend([k as u8, SET as u8]);
            bytes.extend(self.inner.to_le_bytes());
        }
        bytes
    }

    /// Kinds 0 to 3.
    fn encode_ends_and_offsets(&self, form: &Form, k: usize) -> Vec<u8> {
        if self.is_empty() {
            return vec![];
        }
        if self.is_tiny() {
            return vec![k as u8, 0, (self.prefix + 2 * self.suffix) as u8];
        }
        let count = self.offsets.len();
        let kind = match count {
            0 | 1 => 1,
            2..=254 => 2,
            _ => 3,
        };
        let mut bytes = vec![k as u8, kind, self.prefix as u8, self.suffix as u8, count.min(255) as u8];
        let mut put = |number: usize| bytes.extend_from_slice(&form.field(number));
        put(self.offsets.first().copied().unwrap_or(0));
        if kind == 3 {
            put(count);
        }
        if kind >= 2 {
            self.offsets.iter().for_each(|at| put(*at));
        }
        bytes
    }
}

/// A body: the records by rising keyword number.
pub fn encode_body(form: &Form, records: &[Record]) -> Vec<u8> {
    records.iter().enumerate().flat_map(|(k, record)| record.encode(form, k)).collect()
}

/// The records that a good body of that form says, one for each keyword; `None` if it isn't good for a chunk of length `size`.
///
/// It asks for every property of the written form by itself, and does not write the records again to compare.
pub fn decode_body(form: &Form, keywords: &Keywords, size: usize, body: &[u8]) -> Option<Vec<Record>> {
    let mut records = vec![Record::default(); keywords.words.len()];
    let mut reader = Reader { rest: body, width: form.width };
    let mut next = 0;
    while !reader.rest.is_empty() {
        let (k, kind) = (reader.byte()?, reader.byte()?);
        // Only a keyword's set may come behind a record of the same keyword: one set, and behind its record.
        let behind = kind == SET && k + 1 == next && records[k].inner == 0;
        if k >= records.len() || (k < next && !behind) {
            return None;
        }
        next = k + 1;
        let n = keywords.words[k].len();
        match kind {
            SET if form.sets => records[k].inner = decode_set(&mut reader, n, size)?,
            _ => records[k] = decode_record(&mut reader, kind, n, size)?,
        }
    }
    Some(records)
}

/// The set behind its kind, for a keyword of length n: not empty, and of starts in range.
fn decode_set(reader: &mut Reader, n: usize, size: usize) -> Option<u32> {
    let mut bytes = [0; 4];
    for byte in &mut bytes {
        *byte = reader.byte()? as u8;
    }
    let set = u32::from_le_bytes(bytes);
    (set != 0 && in_set_range(set, n, size)).then_some(set)
}

/// The record behind its kind, for a keyword of length n.
fn decode_record(reader: &mut Reader, kind: usize, n: usize, size: usize) -> Option<Record> {
    let record = match kind {
        0 => {
            let both = reader.byte()?;
            if !(1..=3).contains(&both) {
                return None;
            }
            Record { prefix: both % 2, suffix: both / 2, ..Record::default() }
        }
        1..=3 => {
            let (prefix, suffix, count, first) = (reader.byte()?, reader.byte()?, reader.byte()?, reader.field()?);
            let offsets = match (kind, count) {
                (1, 0) if first == 0 && prefix.max(suffix) >= 2 => vec![],
                (1, 1) => vec![first],
                (2, 2..=254) => reader.offsets(count)?,
                (3, 255) => match reader.field()? {
                    exact @ 255.. => reader.offsets(exact)?,
                    _ => return None,
                },
                _ => return None,
            };
            if offsets.first().is_some_and(|at| *at != first) {
                return None;
            }
            Record { prefix, suffix, offsets, inner: 0 }
        }
        _ => return None,
    };
    in_range(&record, n, size).then_some(record)
}

/// No bit outside of the starts that a set may have.
fn in_set_range(set: u32, n: usize, size: usize) -> bool {
    set & !set_of(inner_starts(n, size)) == 0
}

/// Prefix and suffix in range, offsets rising and at most L - n, starts of the set in range.
pub fn in_range(record: &Record, n: usize, size: usize) -> bool {
    record.prefix <= reach(n, size)
        && record.suffix <= reach(n, size)
        && record.offsets.windows(2).all(|two| two[0] < two[1])
        && record.offsets.iter().all(|at| at + n <= size)
        && in_set_range(record.inner, n, size)
}

/// Reads from the front of some bytes; `None` where they are cut short.
struct Reader<'a> {
    rest: &'a [u8],
    /// Bytes of a field.
    width: usize,
}

impl Reader<'_> {
    fn byte(&mut self) -> Option<usize> {
        let (first, rest) = self.rest.split_first()?;
        self.rest = rest;
        Some(usize::from(*first))
    }

    /// An offset or an exact count, least significant byte first.
    fn field(&mut self) -> Option<usize> {
        (0..self.width).try_fold(0, |number, at| Some(number + (self.byte()? << (8 * at))))
    }

    fn offsets(&mut self, count: usize) -> Option<Vec<usize>> {
        (0..count).map(|_| self.field()).collect()
    }
}

#[cfg(test)]
mod tests {
    use super::*;
    use crate::form::{FORM1, FORM2, FORM3, KNOWN};
    use crate::keywords::{list_of, read};
    use std::collections::HashSet;

    fn words(list: &[&[u8]]) -> Keywords {
        read(&list_of(false, list)).unwrap()
    }

    fn record(prefix: usize, suffix: usize, offsets: &[usize]) -> Record {
        Record { prefix, suffix, offsets: offsets.to_vec(), inner: 0 }
    }

    #[test]
    fn the_small_vault() {
        let keywords = words(&[b"ABA", b"AA"]);
        let body = |chunk: &[u8]| encode_body(&FORM1, &records_of(&keywords, chunk));
        assert_eq!(body(b"XAB"), [0, 1, 2, 0, 0, 0, 0]);
        assert_eq!(body(b"ABAX"), [0, 1, 0, 1, 1, 0, 0, 1, 0, 2]);
        assert_eq!(body(b"A"), [0, 0, 3, 1, 0, 3]);
    }

    #[test]
    fn prefix_and_suffix_stop() {
        assert_eq!(record_of(false, b"AAAA", b"AAAA"), record(3, 3, &[0]));
        assert_eq!(record_of(false, b"AAAA", b"AA"), Record { inner: 0b10, ..record(2, 2, &[]) });
        assert_eq!(record_of(false, b"AA", b"AAA"), record(1, 1, &[0, 1]));
        assert_eq!(record_of(false, b"A", b"AxA"), record(0, 0, &[0, 2]));
        assert_eq!(record_of(true, b"bB", b"xb"), record(1, 0, &[]));
    }

    #[test]
    fn accented_capitals() {
        assert_eq!(record_of(true, b"\xC9t\xE9", b"\xE9T\xC9T\xE9"), record(1, 1, &[0, 2]));
        assert_eq!(record_of(false, b"\xC9t\xE9", b"\xE9T\xC9T\xE9"), record(0, 1, &[]));
        assert_eq!(record_of(true, b"\xDE\xD8x", b"x\xFE\xF8"), record(2, 1, &[]));
        assert_eq!(record_of(true, b"x\xC0\xD6", b"\xE0\xF6x"), record(1, 2, &[]));
        // D7, DF and BF by themselves.
        for b in [0xD7, 0xDF, 0xBF] {
            assert_eq!(record_of(true, &[b], &[b, b + 0x20, b ^ 0x20, b]), record(0, 0, &[0, 3]));
            assert_eq!(record_of(true, &[b, b], &[b + 0x20, b, b + 0x20]), Record::default());
        }
    }

    #[test]
    fn kinds_by_count() {
        for (count, kind, byte, size) in
            [(1, 1, 1, 7), (2, 2, 2, 11), (254, 2, 254, 515), (255, 3, 255, 519), (256, 3, 255, 521), (65_535, 3, 255, 131_079)]
        {
            let body = encode_body(&FORM1, &records_of(&words(&[b"A"]), &vec![b'A'; count]));
            assert_eq!((body[1], body[4], body.len()), (kind, byte, size), "{count} finds");
            assert_eq!(
                decode_body(&FORM1, &words(&[b"A"]), count, &body),
                Some(vec![record(0, 0, &(0..count).collect::<Vec<_>>())])
            );
        }
    }

    /// Document 01's small vault in request 105's form.
    #[test]
    fn the_small_vault_in_the_second_form() {
        let keywords = words(&[b"ABA", b"AA"]);
        let bodies: [(&[u8], &[u8]); 3] =
            [(b"XAB", &[0, 1, 2, 0, 0, 0, 0, 0]), (b"ABAX", &[0, 1, 0, 1, 1, 0, 0, 0, 1, 0, 2]), (b"A", &[0, 0, 3, 1, 0, 3])];
        for (chunk, body) in bodies {
            let records = records_of(&keywords, chunk);
            assert_eq!(encode_body(&FORM2, &records), body);
            assert_eq!(decode_body(&FORM2, &keywords, chunk.len(), body), Some(records));
            assert!(chunk == b"A" || decode_body(&FORM1, &keywords, chunk.len(), body).is_none());
        }
    }

    /// Request 108: where no chunk is shorter than a keyword less one byte, its form has the bodies of request 105's.
    #[test]
    fn the_small_vault_in_the_third_form() {
        let keywords = words(&[b"ABA", b"AA"]);
        for chunk in [&b"XAB"[..], b"ABAX", b"A"] {
            let bodies = KNOWN.map(|form| encode_body(&form, &records_of(&keywords, chunk)));
            assert_eq!(bodies[1], bodies[2]);
        }
    }

    /// Each form writes and reads its own fields, and what it writes is nothing that the other reads where there is a field.
    #[test]
    fn kinds_by_count_in_both_forms() {
        let one = words(&[b"A"]);
        for count in [1, 2, 254, 255, 256, 257, 65_535] {
            let records = records_of(&one, &vec![b'A'; count]);
            for (form, other) in [(FORM1, FORM2), (FORM2, FORM1)] {
                let body = encode_body(&form, &records);
                let fields = match count {
                    1 => 1,
                    2..=254 => 1 + count,
                    _ => 2 + count,
                };
                assert_eq!(body.len(), 5 + fields * form.width);
                assert_eq!(decode_body(&form, &one, count, &body).as_ref(), Some(&records));
                assert_eq!(decode_body(&other, &one, count, &body), None);
                assert_eq!(decode_body(&form, &one, count, &body[..body.len() - 1]), None);
            }
        }
    }

    /// The most occurrences and the largest offsets of the second form.
    #[test]
    fn the_longest_chunk_of_the_second_form() {
        let (one, size) = (words(&[b"A"]), FORM2.longest_chunk as usize);
        let all = record(0, 0, &(0..size).collect::<Vec<_>>());
        let body = all.encode(&FORM2, 0);
        assert_eq!((body.len(), &body[..11]), (11 + 3 * size, &[0, 3, 0, 0, 255, 0, 0, 0, 0, 0, 0x10][..]));
        assert_eq!(decode_body(&FORM2, &one, size, &body), Some(vec![all]));
        assert_eq!(decode_body(&FORM2, &one, size - 1, &body), None);
        let last = record(0, 0, &[65_535, 65_536, size - 1]);
        assert_eq!(decode_body(&FORM2, &one, size, &last.encode(&FORM2, 0)), Some(vec![last]));
    }

    #[test]
    fn good_bodies_need_not_be_true() {
        let keywords = words(&[b"DEDUP"]);
        for records in [record(4, 4, &[]), record(0, 0, &[0, 1]), record(4, 4, &[3])] {
            let body = records.encode(&FORM1, 0);
            assert_eq!(decode_body(&FORM1, &keywords, 8, &body), Some(vec![records]));
        }
        assert!(decode_body(&FORM1, &keywords, 4, &record(4, 4, &[]).encode(&FORM1, 0)).is_some());
        assert!(decode_body(&FORM1, &keywords, 3, &record(4, 4, &[]).encode(&FORM1, 0)).is_none());
    }

    #[test]
    fn one_written_form() {
        let keywords = words(&[b"ABA", b"Q", b"AA"]);
        let bad: &[&[u8]] = &[
            &[0],                                       // cut after its keyword number
            &[0, 0],                                    // cut
            &[0, 0, 0],                                 // a tiny byte of 0
            &[0, 0, 4],                                 // a tiny byte above 3
            &[1, 0, 1],                                 // tiny for a keyword of one byte
            &[3, 0, 1],                                 // no such keyword
            &[0, 4, 1],                                 // no such kind
            &[0, 1, 0, 0, 0, 0, 0],                     // nothing at all
            &[0, 1, 1, 0, 0, 0, 0],                     // kind 1 where tiny is due
            &[0, 1, 2, 0, 0, 1, 0],                     // no find, a first offset
            &[0, 1, 2, 0, 2, 1, 0],                     // kind 1 with two finds
            &[0, 1, 3, 0, 0, 0, 0],                     // a prefix of length n
            &[0, 1, 0, 3, 0, 0, 0],                     // a suffix of length n
            &[0, 1, 0, 0, 1, 8, 0],                     // an offset above L - n
            &[0, 2, 2, 0, 0, 0, 0],                     // kind 2 without finds
            &[0, 2, 0, 0, 1, 1, 0, 1, 0],               // kind 2 with one
            &[0, 2, 0, 0, 2, 0, 0, 1, 0, 2, 0],         // its first offset isn't the head's
            &[0, 2, 0, 0, 2, 1, 0, 1, 0, 1, 0],         // equal offsets
            &[0, 2, 0, 0, 2, 2, 0, 2, 0, 1, 0],         // falling offsets
            &[0, 2, 0, 0, 2, 1, 0, 1, 0, 2],            // cut in an offset
            &[0, 3, 0, 0, 255, 1, 0, 2, 0, 1, 0, 2, 0], // exact count below 255
            &[0, 0, 1, 0, 0, 1],                        // a keyword twice
            &[2, 0, 1, 0, 0, 1],                        // falling keywords
            &[0, 0, 1, 9],                              // bytes after the last record
        ];
        for body in bad {
            assert_eq!(decode_body(&FORM1, &keywords, 10, body), None, "{body:?}");
        }
        let good: &[&[u8]] = &[
            &[],
            &[0, 0, 1],
            &[0, 0, 3, 2, 0, 2],
            &[0, 1, 0, 0, 1, 7, 0],
            &[0, 1, 0, 0, 1, 0, 0],
            &[1, 1, 0, 0, 1, 9, 0],
            &[0, 2, 0, 0, 2, 1, 0, 1, 0, 2, 0],
        ];
        for body in good {
            let records = decode_body(&FORM1, &keywords, 10, body).unwrap();
            assert_eq!(encode_body(&FORM1, &records), *body);
        }
        assert_eq!(decode_body(&FORM1, &keywords, 10, &[1, 1, 0, 0, 1, 10, 0]), None);
        assert_eq!(decode_body(&FORM1, &keywords, 2, &[0, 1, 0, 0, 1, 0, 0]), None);
    }

    /// The set of inner starts of a chunk, as its starts.
    fn inner(fold: bool, word: &[u8], chunk: &[u8]) -> Vec<usize> {
        let set = record_of(fold, word, chunk).inner;
        (0..32).filter(|p| (set >> p) & 1 == 1).collect()
    }

    /// Request 108: starts 1 to n - 1 - L, for L at most n - 2.
    #[test]
    fn inner_starts_of_chunks() {
        assert_eq!(inner(false, b"AAAA", b"A"), [1, 2]);
        assert_eq!(inner(false, b"AAAA", b"AA"), [1]);
        assert_eq!(inner(false, b"AAAA", b"AAA"), [0; 0]);
        assert_eq!(inner(false, b"AAAA", b"AAAA"), [0; 0]);
        assert_eq!(inner(false, b"AA", b"A"), [0; 0]);
        assert_eq!(inner(false, b"A", b"A"), [0; 0]);
        assert_eq!(inner(false, b"ABABAB", b"AB"), [2]);
        assert_eq!(inner(false, b"ABABAB", b"BA"), [1, 3]);
        assert_eq!(inner(false, b"ABABAB", b"B"), [1, 3]);
        assert_eq!(record_of(false, &[b'A'; 32], b"A").inner, 0x7FFF_FFFE);
        assert_eq!((record_of(false, &[b'A'; 32], &[b'A'; 30]).inner, record_of(false, &[b'A'; 32], &[b'A'; 31]).inner), (2, 0));
        assert_eq!((inner(true, b"x\xC9bx", b"\xE9"), inner(false, b"x\xC9bx", b"\xE9")), (vec![1], vec![]));
        assert_eq!((inner(true, b"xDEx", b"dE"), inner(true, b"x\xD7x", b"\xF7")), (vec![1], vec![]));
    }

    /// A set behind the keyword's other record, or alone; the older forms leave it out.
    #[test]
    fn sets_are_written_behind_records() {
        for (word, chunk, old, set) in [
            (&b"AAAA"[..], &b"A"[..], &[0, 0, 3][..], &[0, 4, 6, 0, 0, 0][..]),
            (b"AAAA", b"AA", &[0, 1, 2, 2, 0, 0, 0, 0], &[0, 4, 2, 0, 0, 0]),
            (b"XBY", b"B", &[], &[0, 4, 2, 0, 0, 0]),
            (b"AXYB", b"XY", &[], &[0, 4, 2, 0, 0, 0]),
            (&[b'A'; 32], b"A", &[0, 0, 3], &[0, 4, 0xFE, 0xFF, 0xFF, 0x7F]),
            (b"AAAA", b"AAA", &[0, 1, 3, 3, 0, 0, 0, 0], &[]),
        ] {
            let (keywords, records) = (words(&[word]), records_of(&words(&[word]), chunk));
            let whole = [old, set].concat();
            assert_eq!((encode_body(&FORM2, &records), encode_body(&FORM3, &records)), (old.to_vec(), whole.clone()));
            assert_eq!(decode_body(&FORM3, &keywords, chunk.len(), &whole), Some(records));
            let read = [FORM1, FORM2].map(|form| decode_body(&form, &keywords, chunk.len(), &whole).is_some());
            assert!(set.is_empty() || read == [false, false]);
        }
        let keywords = words(&[b"ABAB", b"Q", b"BAB"]);
        let body = [0, 0, 1, 0, 4, 4, 0, 0, 0, 2, 4, 2, 0, 0, 0];
        assert_eq!(encode_body(&FORM3, &records_of(&keywords, b"A")), body);
        assert_eq!(decode_body(&FORM3, &keywords, 1, &body), Some(records_of(&keywords, b"A")));
    }

    fn four() -> Keywords {
        words(&[b"AAAA", b"BAB", b"AA", b"A"])
    }

    /// Sets of a chunk of one byte, behind records and alone.
    #[test]
    fn one_written_form_of_sets() {
        let keywords = four();
        let good: [&[u8]; 6] = [
            &[0, 0, 3, 0, 4, 6, 0, 0, 0],
            &[0, 4, 2, 0, 0, 0],
            &[0, 4, 4, 0, 0, 0, 1, 0, 1],
            &[1, 4, 2, 0, 0, 0],
            &[0, 0, 1, 0, 4, 6, 0, 0, 0, 1, 0, 2, 1, 4, 2, 0, 0, 0, 2, 0, 3],
            &[0, 4, 6, 0, 0, 0, 1, 4, 2, 0, 0, 0],
        ];
        for body in good {
            let records = decode_body(&FORM3, &keywords, 1, body).unwrap();
            assert_eq!(encode_body(&FORM3, &records), body);
            assert!(records.iter().zip(&keywords.words).all(|(record, word)| in_range(record, word.len(), 1)));
        }
    }

    /// Not good: each fault of a set.
    #[test]
    fn sets_that_are_not_good() {
        let keywords = four();
        let bad: [&[u8]; 16] = [
            &[0, 4, 0, 0, 0, 0],                            // an empty set
            &[0, 0, 3, 0, 4, 0, 0, 0, 0],                   // the same behind a record
            &[0, 4, 1, 0, 0, 0],                            // start 0
            &[0, 4, 8, 0, 0, 0],                            // start n - L
            &[0, 4, 6, 1, 0, 0],                            // start 8
            &[0, 4, 6, 0, 0, 0x80],                         // start 31
            &[0, 4, 2, 0, 0, 0, 0, 4, 4, 0, 0, 0],          // a second set
            &[0, 4, 2, 0, 0, 0, 0, 0, 3],                   // before the record
            &[0, 0, 3, 0, 4, 2, 0, 0, 0, 0, 4, 4, 0, 0, 0], // a second one behind a record
            &[0, 0, 3, 1, 0, 1, 0, 4, 2, 0, 0, 0],          // behind the next keyword's record
            &[1, 4, 2, 0, 0, 0, 0, 4, 2, 0, 0, 0],          // falling keywords
            &[2, 4, 2, 0, 0, 0],                            // of a keyword of two bytes
            &[3, 4, 2, 0, 0, 0],                            // of one
            &[4, 4, 2, 0, 0, 0],                            // no such keyword
            &[0, 4, 2, 0, 0],                               // cut
            &[0, 5, 2, 0, 0, 0],                            // no such kind
        ];
        for body in bad {
            assert_eq!(decode_body(&FORM3, &keywords, 1, body), None, "{body:?}");
        }
        let set = [0, 4, 2, 0, 0, 0];
        assert!((1..6).all(|cut| decode_body(&FORM3, &keywords, 1, &set[..cut]).is_none()));
        // By the chunk's length: bit 1 up to L = n - 2.
        assert_eq!(
            [1, 2, 3, 4, 9].map(|size| decode_body(&FORM3, &keywords, size, &set).is_some()),
            [true, true, false, false, false]
        );
    }

    /// Every record and set in range of AAAA and ABA on a chunk of one byte, written: those bodies, and of their parts in any order, with any byte
    /// changed or left out, no others, are read.
    #[test]
    fn read_is_what_is_written() {
        let keywords = words(&[b"AAAA", b"ABA"]);
        let of = |n: usize, at: u32| Record {
            prefix: at as usize % 2,
            suffix: at as usize / 2 % 2,
            inner: (at >> 2) & set_of(inner_starts(n, 1)),
            offsets: vec![],
        };
        let pairs = (0..32).flat_map(|a| (0..16).map(move |b| vec![of(4, a), of(3, b)]));
        let all: Vec<Vec<Record>> =
            pairs.filter(|pair| pair.iter().zip([4, 3]).all(|(record, n)| in_range(record, n, 1))).collect();
        let written: HashSet<Vec<u8>> = all.iter().map(|records| encode_body(&FORM3, records)).collect();
        assert_eq!(written.len(), 4 * 4 * 4 * 2);
        let mut tried = 0;
        let mut judge = |body: &[u8]| {
            tried += 1;
            assert_eq!(decode_body(&FORM3, &keywords, 1, body).is_some(), written.contains(body), "{body:?}");
        };
        for body in &written {
            judge(body);
            for at in 0..body.len() {
                judge(&[&body[..at], &body[at + 1..]].concat());
                judge(&[&body[at..], &body[..at]].concat());
                judge(&[&body[..at], body].concat());
                for byte in [0, 1, 2, 3, 4, 5, 6, 7, 8, 128, 255] {
                    let mut other = body.clone();
                    other[at] = byte;
                    judge(&other);
                }
            }
        }
        assert!(tried > 20_000, "{tried}");
    }

    #[test]
    fn kind_3_is_exact() {
        let keywords = words(&[b"A"]);
        let mut body = record(0, 0, &(0..255).collect::<Vec<_>>()).encode(&FORM1, 0);
        assert!(decode_body(&FORM1, &keywords, 255, &body).is_some());
        assert!(decode_body(&FORM1, &keywords, 254, &body).is_none());
        body[4] = 254;
        assert!(decode_body(&FORM1, &keywords, 255, &body).is_none());
        body[4] = 255;
        body[1] = 2;
        assert!(decode_body(&FORM1, &keywords, 255, &body).is_none());
    }
}
