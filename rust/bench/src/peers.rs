//! The old way: restore each file, then search it. Once with a plain loop, once with a full automaton.

use std::collections::HashMap;
use vault::Occurrence;

/// Chunks by fingerprint.
pub struct Chunks<'a>(HashMap<&'a [u8], &'a [u8]>);

fn number(bytes: &[u8], at: usize) -> usize {
    u32::from_le_bytes([bytes[at], bytes[at + 1], bytes[at + 2], bytes[at + 3]]) as usize
}

impl<'a> Chunks<'a> {
    /// Of a good store.
    pub fn new(store: &'a [u8]) -> Chunks<'a> {
        let entry = |k: usize| {
            let at = 8 + 28 * k;
            let start = number(store, at + 20);
            (&store[at..at + 20], &store[start..start + number(store, at + 24)])
        };
        Chunks((0..number(store, 4)).map(entry).collect())
    }
}

/// Restores each file of good recipes into one buffer and hands it on.
pub fn restore_each(chunks: &Chunks, recipes: &[u8], buffer: &mut Vec<u8>, mut search: impl FnMut(u32, &[u8])) {
    let mut at = 4;
    for file in 0..number(recipes, 0) {
        let places = number(recipes, at);
        at += 4;
        buffer.clear();
        for place in 0..places {
            let key = &recipes[at + 20 * place..at + 20 * place + 20];
            buffer.extend_from_slice(chunks.0[key]);
        }
        at += 20 * places;
        search(file as u32, buffer);
    }
}

/// At every offset, every keyword.
pub fn plain(keywords: &[&[u8]], file: u32, data: &[u8], list: &mut Vec<Occurrence>) {
    for offset in 0..data.len() {
        let rest = &data[offset..];
        for (k, keyword) in keywords.iter().enumerate() {
            if rest[0] == keyword[0] && rest.starts_with(keyword) {
                list.push(Occurrence { file, offset: offset as u32, keyword: k as u8 });
            }
        }
    }
}

/// Aho and Corasick's automaton as a full table: a row of 256 targets for each state, one read a byte.
pub struct Automaton {
    /// Target times 256, with the lowest bit set where a keyword ends; 16 keywords of 32 bytes have 513 states at most.
    table: Box<[u32; CELLS]>,
    /// The keywords that end in a state: number and length.
    ends: Vec<Vec<(u8, u32)>>,
}

/// A power of two above 513 x 256, so that a masked index needs no test.
const CELLS: usize = 1 << 18;

impl Automaton {
    /// With the fold flag, A to Z and the accented capitals of Latin-1 match their small letters, as in the library.
    pub fn new(keywords: &[&[u8]], fold: bool) -> Automaton {
        let capital = |b: u8| b.is_ascii_uppercase() || (0xC0..=0xDE).contains(&b) && b != 0xD7;
        let compared = |b: u8| usize::from(if fold && capital(b) { b + 0x20 } else { b });
        let mut children: Vec<[usize; 256]> = vec![[0; 256]];
        let mut ends: Vec<Vec<(u8, u32)>> = vec![vec![]];
        for (k, keyword) in keywords.iter().enumerate() {
            let mut state = 0;
            for b in keyword.iter().map(|b| compared(*b)) {
                if children[state][b] == 0 {
                    children[state][b] = children.len();
                    children.push([0; 256]);
                    ends.push(vec![]);
                }
                state = children[state][b];
            }
            ends[state].push((k as u8, keyword.len() as u32));
        }
        // Breadth first: a state's row is its failure state's row, but for its own children.
        let mut failure = vec![0; children.len()];
        let mut queue = std::collections::VecDeque::from([0]);
        let mut rows = children.clone();
        while let Some(state) = queue.pop_front() {
            for b in 0..256 {
                let child = children[state][b];
                let fallback = if state == 0 { 0 } else { rows[failure[state]][b] };
                if child == 0 {
                    rows[state][b] = fallback;
                } else {
                    failure[child] = fallback;
                    let inherited = ends[fallback].clone();
                    ends[child].extend(inherited);
                    queue.push_back(child);
                }
            }
        }
        let entry = |target: usize| (target as u32) * 256 + u32::from(!ends[target].is_empty());
        let mut cells: Vec<u32> = rows.iter().flat_map(|row| (0..=255).map(|b| entry(row[compared(b)]))).collect();
        cells.resize(CELLS, 0);
        Automaton { table: cells.try_into().expect("it has that length"), ends }
    }

    /// How many finds there are in some bytes.
    pub fn count(&self, data: &[u8]) -> u64 {
        let (mut state, mut finds) = (0u32, 0);
        for b in data {
            state = self.table[((state & 0x3FF00) | u32::from(*b)) as usize];
            if state & 1 == 1 {
                finds += self.ends[(state / 256) as usize].len() as u64;
            }
        }
        finds
    }

    /// The finds of one file, put into the list's order.
    pub fn search(&self, file: u32, data: &[u8], list: &mut Vec<Occurrence>) {
        let first = list.len();
        let mut state = 0u32;
        for (at, b) in data.iter().enumerate() {
            state = self.table[((state & 0x3FF00) | u32::from(*b)) as usize];
            if state & 1 == 1 {
                for (keyword, length) in &self.ends[(state / 256) as usize] {
                    list.push(Occurrence { file, offset: at as u32 + 1 - length, keyword: *keyword });
                }
            }
        }
        list[first..].sort();
    }
}

#[cfg(test)]
mod tests {
    use super::*;

    #[test]
    fn the_automaton_is_the_plain_loop() {
        let keywords: &[&[u8]] = &[b"ABA", b"A", b"AB", b"BAAB", b"BBB", b"AABA"];
        let (automaton, folded) = (Automaton::new(keywords, false), Automaton::new(keywords, true));
        let mut state = 1u32;
        for length in 0..200 {
            let data: Vec<u8> = (0..length)
                .map(|_| {
                    state = state.wrapping_mul(1_664_525).wrapping_add(1_013_904_223);
                    b"AB"[(state >> 31) as usize]
                })
                .collect();
            let (mut one, mut other) = (vec![], vec![]);
            plain(keywords, 3, &data, &mut one);
            automaton.search(3, &data, &mut other);
            assert_eq!(one, other);
            assert_eq!([automaton.count(&data), folded.count(&data.to_ascii_lowercase())], [one.len() as u64; 2]);
            assert_eq!(automaton.count(&data.to_ascii_lowercase()), 0);
        }
    }

    #[test]
    fn the_fold_of_accented_capitals() {
        let all: Vec<u8> = (0..=255).collect();
        for (keyword, with) in [(0xC9, 2), (0xE9, 2), (0xDE, 2), (0xD7, 1), (0xDF, 1), (0xFF, 1), (0xBF, 1), (b'a', 2)] {
            let count = |fold| Automaton::new(&[&[keyword]], fold).count(&all);
            assert_eq!((count(true), count(false)), (with, 1), "{keyword:02X}");
        }
    }
}
