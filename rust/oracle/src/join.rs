//! Document 01, "Joining two notes" and the join, with request 108's over any number of chunks: records alone, no chunk's bytes.

use crate::index::Index;
use crate::keywords::{alike, stands_at, Keywords};
use crate::records::Record;
use crate::{recipes, Code};

/// A find: file, offset in the file, keyword number. The order is the list's.
#[derive(Clone, Copy, Debug, PartialEq, Eq, PartialOrd, Ord, Hash)]
pub struct Occurrence {
    pub file: u32,
    pub offset: u32,
    pub keyword: u8,
}

/// The cell for lengths i and j: every start of the word in its first i bytes followed by its last j.
pub fn cell(fold: bool, word: &[u8], i: usize, j: usize) -> Vec<usize> {
    let text = [&word[..i], &word[word.len() - j..]].concat();
    (0..text.len()).filter(|at| stands_at(fold, word, &text, *at)).collect()
}

/// For each word its square table.
pub struct Tables(Vec<Vec<Vec<Vec<usize>>>>);

impl Tables {
    pub fn new(keywords: &Keywords) -> Tables {
        let table = |word: &Vec<u8>| {
            let row =
                |i| (0..word.len()).map(|j| if i == 0 || j == 0 { vec![] } else { cell(keywords.fold, word, i, j) }).collect();
            (0..word.len()).map(row).collect()
        };
        Tables(keywords.words.iter().map(table).collect())
    }

    fn starts(&self, word: usize, i: usize, j: usize) -> &[usize] {
        &self.0[word][i][j]
    }
}

/// The join up to its last test: what the files are, for counting and listing.
pub struct Joined<'a> {
    pub index: &'a Index,
    tables: Tables,
    /// Each file's places, as entries of the index.
    pub files: Vec<Vec<usize>>,
}

/// Request 108: what becomes of a word whose first bytes end a chunk, in the chunks behind it.
#[derive(Clone, Copy, Debug, PartialEq, Eq)]
pub enum Trial {
    /// It stands there, in so many chunks, its first and its last among them.
    Whole(usize),
    /// Its first bytes are not the last of the recorded prefix.
    NoFront,
    /// A chunk between its first and its last lacks the bit of its start.
    NoBit,
    /// The bytes left are not the first of the last chunk's recorded suffix.
    NoRest,
    /// The file ends before it does.
    FileEnds,
}

impl Joined<'_> {
    /// Refusals 14 to 17.
    pub fn new<'a>(index: &'a Index, recipes: &[u8]) -> Result<Joined<'a>, Code> {
        let files = recipes::resolve(index, &recipes::read(recipes)?)?;
        Ok(Joined { index, tables: Tables::new(&index.keywords), files })
    }

    fn record(&self, entry: usize, k: usize) -> &Record {
        &self.index.entries[entry].records[k]
    }

    /// The crossing finds that start in the first of these places, which go on to their file's end: the word, and its bytes in that chunk.
    fn crossings<'b>(&'b self, places: &'b [usize]) -> impl Iterator<Item = (usize, usize)> + 'b {
        (0..self.index.keywords.words.len()).flat_map(move |k| {
            let crosses = move |a: &usize| match self.index.form.sets {
                true => matches!(self.trial(k, *a, places), Trial::Whole(_)),
                false => self.in_cell(k, *a, places),
            };
            (1..=self.record(places[0], k).prefix).filter(crosses).map(move |a| (k, a))
        })
    }

    /// Document 01: whether the cell for the first chunk's prefix and the second one's suffix has the start a bytes before the first one's end.
    fn in_cell(&self, k: usize, a: usize, places: &[usize]) -> bool {
        let i = self.record(places[0], k).prefix;
        places.get(1).is_some_and(|next| self.tables.starts(k, i, self.record(*next, k).suffix).contains(&(i - a)))
    }

    /// Request 108: the word with a bytes in the first of these places. Lengths alone say which chunk is its last.
    pub fn trial(&self, k: usize, a: usize, places: &[usize]) -> Trial {
        let (fold, word) = (self.index.keywords.fold, &self.index.keywords.words[k]);
        let i = self.record(places[0], k).prefix;
        if !alike(fold, &word[..a], &word[i - a..i]) {
            return Trial::NoFront;
        }
        let mut at = a;
        for (p, entry) in places.iter().enumerate().skip(1) {
            let (size, record) = (self.index.entries[*entry].size as usize, self.record(*entry, k));
            let left = &word[at..];
            if left.len() <= size {
                let suffix = &word[word.len() - record.suffix..];
                return if stands_at(fold, left, suffix, 0) { Trial::Whole(p + 1) } else { Trial::NoRest };
            }
            if (record.inner >> at) & 1 == 0 {
                return Trial::NoBit;
            }
            at += size;
        }
        Trial::FileEnds
    }

    /// The number of finds in all files.
    pub fn count(&self) -> u64 {
        let inside: Vec<u64> =
            self.index.entries.iter().map(|e| e.records.iter().map(|r| r.offsets.len() as u64).sum()).collect();
        let mut count = 0;
        for places in &self.files {
            count += places.iter().map(|e| inside[*e]).sum::<u64>();
            count += (0..places.len()).map(|p| self.crossings(&places[p..]).count() as u64).sum::<u64>();
        }
        count
    }

    /// The finds of one file, in the list's order.
    fn of_file(&self, file: usize) -> Vec<Occurrence> {
        let mut list = Vec::new();
        let places = &self.files[file];
        let mut base = 0;
        for (p, e) in places.iter().enumerate() {
            let entry = &self.index.entries[*e];
            let mut found =
                |offset: u64, k: usize| list.push(Occurrence { file: file as u32, offset: offset as u32, keyword: k as u8 });
            for (k, record) in entry.records.iter().enumerate() {
                record.offsets.iter().for_each(|at| found(base + *at as u64, k));
            }
            self.crossings(&places[p..]).for_each(|(k, a)| found(base + entry.size - a as u64, k));
            base += entry.size;
        }
        list.sort();
        list
    }

    /// The list.
    pub fn list(&self) -> Vec<Occurrence> {
        (0..self.files.len()).flat_map(|file| self.of_file(file)).collect()
    }
}

/// The list's bytes: 9 for each find.
pub fn encode(list: &[Occurrence]) -> Vec<u8> {
    let mut bytes = Vec::with_capacity(9 * list.len());
    for find in list {
        bytes.extend_from_slice(&find.file.to_le_bytes());
        bytes.extend_from_slice(&find.offset.to_le_bytes());
        bytes.push(find.keyword);
    }
    bytes
}

#[cfg(test)]
mod tests {
    use super::*;
    use crate::form::{Form, FORM1, FORM2, FORM3, KNOWN};
    use crate::keywords::list_of;
    use crate::records::encode_body;
    use crate::{index, Fingerprint};

    #[test]
    fn dedup_has_five_cells() {
        let mut filled = vec![];
        for i in 1..5 {
            for j in 1..5 {
                let starts = cell(false, b"DEDUP", i, j);
                if !starts.is_empty() {
                    filled.push((i, j, starts));
                }
            }
        }
        assert_eq!(filled, [(1, 4, vec![0]), (2, 3, vec![0]), (3, 2, vec![0]), (3, 4, vec![2]), (4, 1, vec![0])]);
    }

    #[test]
    fn cells_with_more_than_one_start() {
        assert_eq!(cell(false, b"AAAA", 3, 3), [0, 1, 2]);
        assert_eq!(cell(false, b"ABABA", 3, 4), [0, 2]);
        assert_eq!(cell(true, b"aA", 1, 1), [0]);
    }

    /// Request 104: a capital, a small letter, a capital.
    #[test]
    fn cells_of_accented_capitals() {
        assert_eq!(cell(true, b"\xC9\xE9\xC9", 2, 2), [0, 1]);
        assert_eq!(cell(false, b"\xC9\xE9\xC9", 2, 2), [0; 0]);
        assert_eq!(cell(true, b"\xE9\xC9", 1, 1), [0]);
        for b in [0xBF, 0xD7, 0xDF] {
            assert_eq!(cell(true, &[b, b + 0x20, b], 2, 2), [0; 0]);
        }
    }

    fn record(prefix: usize, suffix: usize, offsets: &[usize]) -> Record {
        Record { prefix, suffix, offsets: offsets.to_vec(), inner: 0 }
    }

    /// The list of an index of these records, one chunk of each length, and the files by chunk number: in each form the same.
    fn join(words: &[&[u8]], chunks: &[(u64, &[Record])], files: &[&[u8]]) -> Result<Vec<(u32, u32, u8)>, Code> {
        let [first, second, third] = KNOWN.map(|form| join_in(&form, words, chunks, files));
        assert_eq!((&first, &first), (&second, &third));
        first
    }

    fn join_in(form: &Form, words: &[&[u8]], chunks: &[(u64, &[Record])], files: &[&[u8]]) -> Result<Vec<(u32, u32, u8)>, Code> {
        let entries: Vec<(Fingerprint, u64, Vec<u8>)> =
            chunks.iter().enumerate().map(|(e, (size, records))| ([e as u8; 20], *size, encode_body(form, records))).collect();
        let index = index::read_among(&[*form], &index::encode(form, &list_of(false, words), &entries))?;
        let files: Vec<Vec<Fingerprint>> = files.iter().map(|f| f.iter().map(|e| [*e; 20]).collect()).collect();
        let joined = Joined::new(&index, &crate::recipes::encode(&files))?;
        let list = joined.list();
        assert_eq!(joined.count(), list.len() as u64);
        Ok(list.iter().map(|o| (o.file, o.offset, o.keyword)).collect())
    }

    #[test]
    fn made_up_records_join_by_the_table() {
        let full: &[Record] = &[record(3, 3, &[0])];
        assert_eq!(join(&[b"AAAA"], &[(5, full)], &[&[0, 0]]), Ok(vec![(0, 0, 0), (0, 2, 0), (0, 3, 0), (0, 4, 0), (0, 5, 0)]));
        let dedup: &[Record] = &[record(3, 4, &[0, 1])];
        assert_eq!(
            join(&[b"DEDUP"], &[(6, dedup)], &[&[0], &[0, 0]]),
            Ok(vec![(0, 0, 0), (0, 1, 0), (1, 0, 0), (1, 1, 0), (1, 5, 0), (1, 6, 0), (1, 7, 0)])
        );
    }

    /// Request 108 on two neighbours is the cell, for every prefix and suffix, whether or not some chunk gives them: in every form.
    #[test]
    fn two_neighbours_join_by_the_table() {
        let mut found = 0;
        for word in [&b"ABABA"[..], b"AAAA", b"DEDUP", b"ABAABA", b"AB"] {
            let n = word.len();
            for (i, j) in (0..n).flat_map(|i| (0..n).map(move |j| (i, j))) {
                let (left, right) = ([record(i, 0, &[])], [record(0, j, &[])]);
                let list = join(&[word], &[(n as u64 - 1, &left), (n as u64 - 1, &right)], &[&[0, 1]]).unwrap();
                let starts = if i.min(j) == 0 { vec![] } else { cell(false, word, i, j) };
                let want: Vec<(u32, u32, u8)> = starts.iter().map(|s| (0, (n - 1 - i + s) as u32, 0)).collect();
                assert_eq!(list, want, "{} {i} {j}", word.escape_ascii());
                found += list.len();
            }
        }
        assert!(found > 30, "{found}");
    }

    /// The list in the third form, with 17 in the older ones.
    fn join_across(words: &[&[u8]], chunks: &[(u64, &[Record])], files: &[&[u8]]) -> Vec<(u32, u32, u8)> {
        let older: Vec<(u64, Vec<Record>)> = chunks
            .iter()
            .map(|(size, records)| (*size, records.iter().map(|r| Record { inner: 0, ..r.clone() }).collect()))
            .collect();
        let older: Vec<(u64, &[Record])> = older.iter().map(|(size, records)| (*size, &records[..])).collect();
        assert_eq!([FORM1, FORM2].map(|form| join_in(&form, words, &older, files)), [Err(17), Err(17)]);
        join_in(&FORM3, words, chunks, files).unwrap()
    }

    /// Request 108: the same chunk is first, between and last, for every number of its bytes.
    #[test]
    fn a_keyword_over_many_chunks() {
        let one: &[Record] = &[Record { inner: 0b110, ..record(1, 1, &[]) }];
        assert_eq!(join_across(&[b"AAAA"], &[(1, one)], &[&[0; 6]]), [(0, 0, 0), (0, 1, 0), (0, 2, 0)]);
        let two: &[Record] = &[Record { inner: 0b10, ..record(2, 2, &[]) }];
        assert_eq!(join_across(&[b"AAAA"], &[(1, one), (2, two)], &[&[1, 0, 1]]), [(0, 0, 0), (0, 1, 0)]);
        let all: &[Record] = &[Record { inner: 0x7FFF_FFFE, ..record(1, 1, &[]) }];
        assert_eq!(join_across(&[&[b'A'; 32]], &[(1, all)], &[&[0; 31], &[0; 33]]), [(1, 0, 0), (1, 1, 0)]);
    }

    /// Each condition by itself, of the keyword ABCD over chunks A, BC and D.
    #[test]
    fn what_a_crossing_needs() {
        let found = |prefix, bits, suffix, file: &[u8]| {
            let chunks: [[Record; 1]; 3] =
                [[record(prefix, 0, &[])], [Record { inner: bits, ..Record::default() }], [record(0, suffix, &[])]];
            let sizes = [1, 2, 1].iter().zip(&chunks).map(|(size, records)| (*size, &records[..])).collect::<Vec<_>>();
            join_in(&FORM3, &[b"ABCD"], &sizes, &[file]).unwrap().len()
        };
        assert_eq!(found(1, 0b10, 1, &[0, 1, 2]), 1);
        assert_eq!(found(0, 0b10, 1, &[0, 1, 2]), 0);
        assert_eq!(found(1, 0, 1, &[0, 1, 2]), 0);
        assert_eq!(found(1, 0b10, 0, &[0, 1, 2]), 0);
        for file in [&[0, 1][..], &[1, 2], &[0, 2], &[0, 1, 1, 2], &[0, 0, 1], &[0]] {
            assert_eq!(found(1, 0b10, 1, file), 0, "{file:?}");
        }
    }

    /// Records that no chunk gives: of the prefix its last bytes count, of the suffix its first, and lengths say which chunk is the last.
    #[test]
    fn made_up_records_over_many_chunks() {
        // ABAB, prefix ABA: with a = 3 and a = 1. Then B alone, or BA with a bit and B behind.
        let left: &[Record] = &[record(3, 0, &[])];
        let between: &[Record] = &[Record { inner: 0b10, ..record(0, 1, &[]) }];
        let last: &[Record] = &[record(0, 3, &[])];
        let chunks = [(3, left), (2, between), (9, last)];
        assert_eq!(join_across(&[b"ABAB"], &chunks, &[&[0, 1, 2]]), [(0, 0, 0), (0, 2, 0)]);
        // A chunk of one byte whose set has the bit of no byte that it could be: AB and BA from one chunk.
        let any: &[Record] = &[Record { inner: 0b110, ..record(1, 1, &[]) }];
        assert_eq!(join_across(&[b"ABAB"], &[(1, any)], &[&[0; 4]]), [(0, 0, 0)]);
        // All of a chunk that is longer than the bytes left can't be between, whatever its suffix.
        let longer: &[Record] = &[record(1, 2, &[])];
        assert_eq!(join_in(&FORM3, &[b"ABAB"], &[(3, longer), (1, any)], &[&[0, 0, 0]]), Ok(vec![]));
    }

    #[test]
    fn a_crossing_ends_with_its_file() {
        let one: &[Record] = &[Record { inner: 0b110, ..record(1, 1, &[]) }];
        let files: [&[u8]; 5] = [&[0, 0, 0], &[0], &[], &[0, 0, 0, 0], &[0]];
        assert_eq!(join_across(&[b"AAAA"], &[(1, one)], &files), [(3, 0, 0)]);
    }

    #[test]
    fn two_tiny_records_join() {
        let tiny: &[Record] = &[record(1, 1, &[])];
        assert_eq!(join(&[b"AA"], &[(1, tiny)], &[&[0, 0, 0]]), Ok(vec![(0, 0, 0), (0, 1, 0)]));
    }

    #[test]
    fn words_that_tie_go_by_number() {
        let records: &[Record] = &[record(2, 1, &[]), record(0, 0, &[2])];
        assert_eq!(join(&[b"ABA", b"AB"], &[(4, records)], &[&[0, 0]]), Ok(vec![(0, 2, 0), (0, 2, 1), (0, 6, 1)]));
    }

    #[test]
    fn files_do_not_touch() {
        let tiny: &[Record] = &[record(1, 1, &[])];
        assert_eq!(join(&[b"AA"], &[(1, tiny)], &[&[0], &[], &[0]]), Ok(vec![]));
    }

    #[test]
    fn counts_pass_32_bits() {
        let all: Vec<usize> = (0..65_535).collect();
        let bytes = index::encode(&FORM1, &list_of(false, &[b"A"]), &[([1; 20], 65_535, record(0, 0, &all).encode(&FORM1, 0))]);
        let index = index::read(&bytes).unwrap();
        let joined = Joined::new(&index, &crate::recipes::encode(&[vec![[1; 20]; 7_283]])).unwrap();
        assert_eq!(9 * joined.count(), 4_295_622_645);
    }
}
