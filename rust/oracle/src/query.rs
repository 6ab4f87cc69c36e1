//! Request 109, "Several words in order": the files in which the words of a query are found one behind the other, and where.
//!
//! It goes from the end: which finds of each word can be gone on from. The walk from the front that takes the first find each time, which is what an
//! implementation would do, is not here.

use crate::join::Occurrence;
use crate::keywords::Keywords;
use crate::Code;

/// A qualifying file's number, and the offsets of its choice.
#[derive(Clone, Debug, PartialEq, Eq)]
pub struct Line {
    pub file: u32,
    pub offsets: Vec<u32>,
}

/// 21: a query of another length, or with a number not below w.
pub fn test(query: &[u8], keywords: &Keywords) -> Result<(), Code> {
    let numbers = query.iter().all(|k| usize::from(*k) < keywords.words.len());
    if (2..=8).contains(&query.len()) && numbers {
        Ok(())
    } else {
        Err(21)
    }
}

/// Where the finds of a word start and end in a file, by rising start.
fn finds(keywords: &Keywords, found: &[Occurrence], k: u8) -> Vec<(u64, u64)> {
    let of_word = found.iter().filter(|find| find.keyword == k);
    of_word.map(|find| (u64::from(find.offset), u64::from(find.offset) + keywords.words[usize::from(k)].len() as u64)).collect()
}

/// The offsets of the choice in a file with these finds whose first find starts earliest, then the second, and so on; none if there is no choice.
pub fn choice(keywords: &Keywords, found: &[Occurrence], query: &[u8]) -> Option<Vec<u32>> {
    // For each word of the query, the finds that a choice of the words behind it can follow: for the last word all.
    let mut followed: Vec<Vec<(u64, u64)>> = Vec::new();
    let mut latest = u64::MAX;
    for k in query.iter().rev() {
        let mut of_word = finds(keywords, found, *k);
        of_word.retain(|(_, end)| *end <= latest);
        latest = of_word.last()?.0;
        followed.push(of_word);
    }
    // From the front, the earliest of these.
    let mut offsets = Vec::new();
    let mut from = 0;
    for of_word in followed.iter().rev() {
        let (start, end) = of_word.iter().find(|(start, _)| *start >= from)?;
        offsets.push(*start as u32);
        from = *end;
    }
    Some(offsets)
}

/// The lines of a join's list, by rising file number: a file without finds has none.
pub fn lines(keywords: &Keywords, list: &[Occurrence], query: &[u8]) -> Vec<Line> {
    let files = list.chunk_by(|a, b| a.file == b.file);
    let line = |found: &[Occurrence]| Some(Line { file: found[0].file, offsets: choice(keywords, found, query)? });
    files.filter_map(line).collect()
}

/// The lines' bytes: 4 + 4 x the query's length for each.
pub fn encode(lines: &[Line]) -> Vec<u8> {
    let mut bytes = Vec::new();
    for line in lines {
        bytes.extend_from_slice(&line.file.to_le_bytes());
        line.offsets.iter().for_each(|offset| bytes.extend_from_slice(&offset.to_le_bytes()));
    }
    bytes
}

#[cfg(test)]
mod tests {
    use super::*;
    use crate::form::{FORM1, FORM2, KNOWN, NEWEST};
    use crate::join::Joined;
    use crate::keywords::list_of;
    use crate::{calls, direct, index, recipes, store, Fingerprint};

    /// The paper's words on a restored text: every choice there is, and the least of them.
    fn by_all_choices(keywords: &Keywords, text: &[u8], query: &[u8]) -> Option<Vec<u32>> {
        fn all(keywords: &Keywords, text: &[u8], query: &[u8], chosen: &mut Vec<u32>, from: usize, choices: &mut Vec<Vec<u32>>) {
            let Some((k, rest)) = query.split_first() else { return choices.push(chosen.clone()) };
            for at in from..text.len() {
                if keywords.stands_at(usize::from(*k), text, at) {
                    chosen.push(at as u32);
                    all(keywords, text, rest, chosen, at + keywords.words[usize::from(*k)].len(), choices);
                    chosen.pop();
                }
            }
        }
        let mut choices = Vec::new();
        all(keywords, text, query, &mut Vec::new(), 0, &mut choices);
        choices.into_iter().min()
    }

    /// Every query of that length over so many words.
    fn queries(words: usize, length: u32) -> impl Iterator<Item = Vec<u8>> {
        (0..words.pow(length)).map(move |q| (0..length).map(|at| (q / words.pow(at) % words) as u8).collect())
    }

    fn read(fold: bool, words: &[&[u8]]) -> Keywords {
        crate::keywords::read(&list_of(fold, words)).unwrap()
    }

    #[test]
    fn choices_in_texts() {
        let keywords = read(false, &[b"AAAA", b"AB", b"BA", b"B"]);
        let choice = |text: &[u8], query: &[u8]| choice(&keywords, &direct::search(&keywords, &[text.to_vec()]), query);
        assert_eq!(choice(b"AAAAAAA", &[0, 0]), None);
        assert_eq!(choice(b"AAAAAAAA", &[0, 0]), Some(vec![0, 4]));
        assert_eq!(choice(b"AAAAAAAAA", &[0, 0]), Some(vec![0, 4]));
        assert_eq!(choice(b"ABA", &[1, 2]), None);
        assert_eq!(choice(b"ABBA", &[1, 2]), Some(vec![0, 2]));
        assert_eq!(choice(b"ABABAB", &[1, 2]), Some(vec![0, 3]));
        assert_eq!(choice(b"AB.AB.BA.BA", &[1, 2]), Some(vec![0, 6]));
        assert_eq!(choice(b"BA.AB", &[1, 2]), None);
        assert_eq!(choice(b"BBBBBBBB", &[3; 8]), Some(vec![0, 1, 2, 3, 4, 5, 6, 7]));
        assert_eq!(choice(b"BBBBBBB", &[3; 8]), None);
        assert_eq!(choice(b"", &[3, 3]), None);
    }

    /// Every text of up to nine letters of two, and every query of two and three words, beside all choices.
    #[test]
    fn the_least_of_all_choices() {
        let (mut chosen, mut none) = (0, 0);
        for (fold, words) in [(false, &[&b"AA"[..], b"AB", b"BAB", b"A"]), (true, &[b"a", b"ABA", b"bb", b"baAb"])] {
            let keywords = read(fold, words);
            for (length, bits) in (0..=9usize).flat_map(|length| (0..1usize << length).map(move |bits| (length, bits))) {
                let text: Vec<u8> = (0..length).map(|at| b"AB"[bits >> at & 1]).collect();
                let found = direct::search(&keywords, std::slice::from_ref(&text));
                for query in queries(words.len(), 2).chain(queries(words.len(), 3)) {
                    let got = choice(&keywords, &found, &query);
                    assert_eq!(got, by_all_choices(&keywords, &text, &query), "{} {query:?}", text.escape_ascii());
                    *(if got.is_some() { &mut chosen } else { &mut none }) += 1;
                }
            }
        }
        assert!(chosen > 25_000 && none > 100_000, "{chosen} {none}");
    }

    fn files(files: &[&[u8]]) -> Vec<u8> {
        recipes::encode(&files.iter().map(|file| file.iter().map(|key| [*key; 20]).collect()).collect::<Vec<_>>())
    }

    /// Restored files of small pieces, with the lines of a join of their index beside all choices in the texts.
    #[test]
    fn the_lines_are_those_of_the_restored_files() {
        let words: &[&[u8]] = &[b"ABA", b"AA", b"B", b"AABB", b"xA"];
        let list = list_of(true, words);
        let pieces: [&[u8]; 5] = [b"A", b"b", b"ABA", b"xa", b"BAAB"];
        let chunks: Vec<(Fingerprint, &[u8])> = pieces.iter().enumerate().map(|(k, piece)| ([k as u8; 20], *piece)).collect();
        let store = store::encode(&chunks);
        let all: Vec<Vec<Fingerprint>> =
            (0..5usize.pow(5)).map(|f| (0..5).map(|p| [(f / 5usize.pow(p) % 5) as u8; 20]).collect()).collect();
        let keywords = crate::keywords::read(&list).unwrap();
        let restored = direct::restore(&store, &store::read(&store).unwrap(), &all).unwrap();
        let bytes = calls::index_of(&list, &store).unwrap();
        let index = index::read(&bytes).unwrap();
        let found = Joined::new(&index, &recipes::encode(&all)).unwrap().list();
        let mut count = 0;
        for query in [&[0, 1][..], &[1, 0], &[2, 2], &[2, 0, 2], &[3, 4], &[1, 1, 1], &[4, 2, 4], &[0; 4], &[2; 8]] {
            let choices = restored.iter().map(|text| by_all_choices(&keywords, text, query)).enumerate();
            let want: Vec<Line> =
                choices.filter_map(|(file, offsets)| Some(Line { file: file as u32, offsets: offsets? })).collect();
            assert_eq!(lines(&keywords, &found, query), want, "{query:?}");
            count += want.len();
        }
        assert!(count > 3_000, "{count}");
    }

    #[test]
    fn the_length_and_the_numbers() {
        let keywords = read(false, &[b"A", b"B", b"C"]);
        for (query, want) in [
            (&[][..], 21),
            (&[0], 21),
            (&[0, 2], 0),
            (&[0, 3], 21),
            (&[3, 0], 21),
            (&[2, 2, 255], 21),
            (&[1; 8], 0),
            (&[1; 9], 21),
            (&[1, 1, 1, 1, 1, 1, 1, 3], 21),
        ] {
            assert_eq!(test(query, &keywords).err().unwrap_or(0), want, "{query:?}");
        }
    }

    #[test]
    fn bytes_of_lines() {
        let lines = [Line { file: 0x0102, offsets: vec![3, 0x01020304] }, Line { file: 65_534, offsets: vec![u32::MAX, 0] }];
        let want = [2, 1, 0, 0, 3, 0, 0, 0, 4, 3, 2, 1, 0xFE, 0xFF, 0, 0, 0xFF, 0xFF, 0xFF, 0xFF, 0, 0, 0, 0];
        assert_eq!(encode(&lines), want);
    }

    /// An index of the chunks XAB, ABAX and A for ABA and AA, in that form.
    fn small(form: &crate::form::Form) -> Vec<u8> {
        let list = list_of(false, &[b"ABA", b"AA"]);
        let store = store::encode(&[([1; 20], &b"XAB"[..]), ([2; 20], b"ABAX"), ([3; 20], b"A")]);
        index::of_scan(form, &list, &crate::keywords::read(&list).unwrap(), &store, &store::read(&store).unwrap())
    }

    /// Code, number and buffer of a query, and of its count.
    fn asked(index: &[u8], recipes: &[u8], query: &[u8], room: usize) -> (Code, u64, Vec<u8>) {
        let (mut lines, mut out, mut counted) = (0xA5A5, vec![0xEE; room], 0xA5A5);
        let code = calls::query(index, recipes, query, &mut out, &mut lines);
        let count = calls::query_count(index, recipes, query, &mut counted);
        assert_eq!(count, if code == 18 { 0 } else { code });
        assert!(if code == 18 { counted != 0xA5A5 } else { counted == lines });
        (code, lines, out)
    }

    /// Each number with everything wrong that is tested behind it; nothing is written or told by a refusal.
    #[test]
    fn the_order_of_the_tests() {
        let index = small(&NEWEST);
        let good = files(&[&[2, 2], &[1], &[2, 1, 2]]);
        let (short, absent) = (files(&[&[1, 3, 2]]), files(&[&[1, 9]]));
        let refused = |index: &[u8], recipes: &[u8], query: &[u8], room: usize, want: Code| {
            assert_eq!(asked(index, recipes, query, room), (want, 0xA5A5, vec![0xEE; room]));
        };
        refused(&index[..7], &[1], &[9], 0, 10);
        refused(&index[..9], &[1], &[9], 0, 1);
        refused(&index[..60], &[1], &[9], 0, 11);
        refused(&index, &[1], &[9], 0, 14);
        refused(&index, &absent, &[9], 0, 15);
        refused(&small(&FORM1), &short, &[9], 0, 17);
        refused(&small(&FORM2), &short, &[9], 0, 17);
        refused(&index, &short, &[9], 0, 21);
        for query in [&[0][..], &[0; 9], &[0, 2], &[]] {
            refused(&index, &good, query, 0, 21);
            refused(&index, &good, query, 100, 21);
        }
        refused(&index, &good, &[0, 0], 0, 18);
        // One of two lines fits.
        refused(&index, &good, &[0, 0], 23, 18);
        let lines = [[0, 0, 0, 0, 0, 0, 0, 0, 4, 0, 0, 0], [2, 0, 0, 0, 0, 0, 0, 0, 5, 0, 0, 0]].concat();
        assert_eq!(asked(&index, &good, &[0, 0], 24), (0, 2, lines.clone()));
        assert_eq!(asked(&index, &good, &[0, 0], 27), (0, 2, [&lines[..], &[0xEE; 3]].concat()));
        assert_eq!(asked(&index, &good, &[1, 1], 0), (0, 0, vec![]));
        assert_eq!(asked(&index, &[0; 4], &[1, 1], 3), (0, 0, vec![0xEE; 3]));
    }

    /// The same lines from an index of each form where no 17 stands.
    #[test]
    fn under_each_mark() {
        let recipes = files(&[&[1, 2], &[2, 2], &[3, 3], &[1, 2, 2]]);
        let of = |form| asked(&small(form), &recipes, &[0, 0], 36);
        assert_eq!((of(&NEWEST).0, of(&NEWEST).1), (0, 2));
        KNOWN.iter().for_each(|form| assert_eq!(of(form), of(&NEWEST)));
    }
}
