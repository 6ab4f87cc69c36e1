//! Request 103, "All words in a single pass of the chunk", with section 3.1 of source document 000: the moves that a scan reports.
//!
//! Twice: [`Trie`] has the nodes as strings and looks for each child and each failure link when it is needed, as the paper
//! says it; [`Table`] asks the trie for each of them once and then walks by numbers, for large stores.

use crate::keywords::{compares_as, Keywords};
use crate::store::Chunk;
use std::collections::{HashMap, HashSet};

/// The trie of all keywords. Its nodes are all beginnings of the words, compared under the fold flag; the empty one is the root.
pub struct Trie {
    fold: bool,
    nodes: HashSet<Vec<u8>>,
}

impl Trie {
    pub fn new(keywords: &Keywords) -> Trie {
        let mut nodes = HashSet::from([vec![]]);
        for word in &keywords.words {
            let compared: Vec<u8> = word.iter().map(|b| compares_as(keywords.fold, *b)).collect();
            (1..=compared.len()).for_each(|n| {
                nodes.insert(compared[..n].to_vec());
            });
        }
        Trie { fold: keywords.fold, nodes }
    }

    /// The child by a byte (as it compares), if there is one.
    fn child(&self, node: &[u8], b: u8) -> Option<Vec<u8>> {
        let longer = [node, &[b]].concat();
        self.nodes.contains(&longer).then_some(longer)
    }

    /// The failure link of a node that isn't the root: its longest proper ending that is a node.
    fn link(&self, node: &[u8]) -> Vec<u8> {
        let endings = (1..=node.len()).map(|from| &node[from..]);
        endings.into_iter().find(|ending| self.nodes.contains(*ending)).map_or(vec![], |ending| ending.to_vec())
    }

    /// The moves over one chunk, from the root.
    pub fn moves(&self, chunk: &[u8]) -> u64 {
        let mut node = vec![];
        let mut moves = 0;
        for b in chunk.iter().map(|b| compares_as(self.fold, *b)) {
            while !node.is_empty() && self.child(&node, b).is_none() {
                node = self.link(&node);
                moves += 1;
            }
            if let Some(child) = self.child(&node, b) {
                node = child;
            }
            moves += 1;
        }
        moves
    }
}

/// The root's number.
const ROOT: usize = 0;

/// The trie with its nodes numbered: what each child and each link is, written down.
pub struct Table {
    fold: bool,
    /// By node and byte as it compares: the child, or the root where there is none (the root is nobody's child).
    children: Vec<[usize; 256]>,
    links: Vec<usize>,
}

impl Table {
    pub fn new(keywords: &Keywords) -> Table {
        let trie = Trie::new(keywords);
        let mut nodes: Vec<&Vec<u8>> = trie.nodes.iter().collect();
        nodes.sort();
        // The empty one is the least of them.
        let number: HashMap<&[u8], usize> = nodes.iter().enumerate().map(|(k, node)| (&node[..], k)).collect();
        let mut children = vec![[ROOT; 256]; nodes.len()];
        for node in &nodes {
            if let Some((last, parent)) = node.split_last() {
                children[number[parent]][usize::from(*last)] = number[&node[..]];
            }
        }
        let links = nodes.iter().map(|node| number[&trie.link(node)[..]]).collect();
        Table { fold: trie.fold, children, links }
    }

    /// The moves over one chunk, from the root.
    pub fn moves(&self, chunk: &[u8]) -> u64 {
        let mut node = ROOT;
        let mut moves = 0;
        for b in chunk.iter().map(|b| usize::from(compares_as(self.fold, *b))) {
            while node != ROOT && self.children[node][b] == ROOT {
                node = self.links[node];
                moves += 1;
            }
            // At the root without a child this stays there.
            node = self.children[node][b];
            moves += 1;
        }
        moves
    }
}

/// The moves of a scan of accepted inputs, summed over all chunks.
pub fn of_scan(keywords: &Keywords, store: &[u8], chunks: &[Chunk]) -> u64 {
    let table = Table::new(keywords);
    chunks.iter().map(|c| table.moves(&store[c.place.clone()])).sum()
}

/// The same by strings alone.
pub fn of_scan_by_strings(keywords: &Keywords, store: &[u8], chunks: &[Chunk]) -> u64 {
    let trie = Trie::new(keywords);
    chunks.iter().map(|c| trie.moves(&store[c.place.clone()])).sum()
}

#[cfg(test)]
mod tests {
    use super::*;
    use crate::keywords::{list_of, read};

    fn moves(fold: bool, words: &[&[u8]], chunk: &[u8]) -> u64 {
        let keywords = read(&list_of(fold, words)).unwrap();
        let moves = Trie::new(&keywords).moves(chunk);
        assert_eq!(Table::new(&keywords).moves(chunk), moves);
        moves
    }

    #[test]
    fn the_papers_trie() {
        let trie = Trie::new(&read(&list_of(false, &[b"DEDUP", b"UP"])).unwrap());
        let mut nodes: Vec<&[u8]> = trie.nodes.iter().map(|node| &node[..]).collect();
        nodes.sort();
        assert_eq!(nodes, [&b""[..], b"D", b"DE", b"DED", b"DEDU", b"DEDUP", b"U", b"UP"]);
        let links: Vec<Vec<u8>> = nodes[1..].iter().map(|node| trie.link(node)).collect();
        assert_eq!(links, [&b""[..], b"", b"D", b"U", b"UP", b"", b""]);
    }

    #[test]
    fn by_hand() {
        for (chunk, want) in [(&b"DEDE"[..], 5), (b"DEDUP", 5), (b"DEDUPX", 8), (b"", 0), (b"X", 1), (b"UPUP", 5)] {
            assert_eq!(moves(false, &[b"DEDUP", b"UP"], chunk), want, "{}", chunk.escape_ascii());
        }
        assert_eq!(moves(false, &[b"AAAA"], b"AAAAAA"), 8);
        assert_eq!(moves(false, &[b"AAAA"], b"AAAX"), 7);
        assert_eq!(moves(false, &[b"A"], b"AAAA"), 7);
        assert_eq!(moves(false, &[b"A"], b"BBBB"), 4);
    }

    #[test]
    fn the_fold_makes_nodes_one() {
        assert_eq!(moves(true, &[b"dedup", b"Up"], b"dEDUPx"), 8);
        assert_eq!(moves(false, &[b"dedup", b"Up"], b"dEDUPx"), 8);
        assert_eq!(moves(true, &[b"dedup", b"Up"], b"DeDe"), 5);
        assert_eq!(moves(false, &[b"dedup", b"Up"], b"DeDe"), 4);
        // A node for Ab and aC's first byte: one under the flag, two without.
        assert_eq!(moves(true, &[b"Ab", b"aC"], b"aAc"), 4);
        assert_eq!(moves(false, &[b"Ab", b"aC"], b"aAc"), 5);
        // 5B and 7B are not alike, nor D7 and F7, DF and FF, BF and DF.
        for (a, b) in [(0x5B, 0x7B), (0xD7, 0xF7), (0xDF, 0xFF), (0xBF, 0xDF)] {
            assert_eq!(moves(true, &[&[a, a]], &[a, b]), 3);
        }
        // Request 104: C9 and E9 are, with the flag.
        assert_eq!(moves(true, &[b"\xC9\xC9"], b"\xC9\xE9"), 2);
        assert_eq!(moves(false, &[b"\xC9\xC9"], b"\xC9\xE9"), 3);
        assert_eq!(moves(true, &[b"\xC9b", b"\xE9C"], b"\xE9\xC9c"), 4);
        assert_eq!(moves(false, &[b"\xC9b", b"\xE9C"], b"\xE9\xC9c"), 5);
    }

    #[test]
    fn at_most_twice_the_bytes() {
        let word = [&[b'a'; 31][..], b"b"].concat();
        for length in [0, 1, 30, 31, 32, 33, 1000] {
            let want = if length <= 31 { length } else { 2 * length - 31 };
            assert_eq!(moves(false, &[&word], &vec![b'a'; length]), want as u64);
        }
    }

    /// Both ways, over every text of nine letters.
    #[test]
    fn strings_and_numbers() {
        let words: [&[&[u8]]; 4] = [&[b"ABA", b"AA"], &[b"AAB", b"ABAB", b"B"], &[b"BAABA", b"AB", b"ABA"], &[b"AAAB", b"AAA"]];
        for words in words {
            let keywords = read(&list_of(true, words)).unwrap();
            let (trie, table) = (Trie::new(&keywords), Table::new(&keywords));
            for text in 0..512u32 {
                let chunk: Vec<u8> = (0..9).map(|k| b"aB"[(text >> k) as usize & 1]).collect();
                let moves = trie.moves(&chunk);
                assert_eq!(moves, table.moves(&chunk));
                assert!((9..=18).contains(&moves));
            }
        }
    }
}
