//! The scan beside the full automaton (DFA) of the crate aho-corasick, over the same chunks.
//!
//!     bench-ac [MEGABYTES] [ROUNDS] [FOLDER..]
//!
//! The crate in three ways: `ac`, its plain iteration as it comes, which finds no occurrence that overlaps the one before; `ac-lf`, the same
//! leftmost-first, with which the crate may use all its filters and pass over bytes unread; `ac-all`, its search for all occurrences, which is
//! what a scan has to find.

use aho_corasick::{AhoCorasick, AhoCorasickBuilder, MatchKind};
use bench::scan::{self, Counter, Peer};

fn dfa(keywords: &[&[u8]], fold: bool, kind: MatchKind) -> AhoCorasick<u32> {
    let mut builder = AhoCorasickBuilder::new();
    // The crate folds ASCII only. That is the same here: the keywords are letters and digits of ASCII.
    builder.dfa(true).ascii_case_insensitive(fold).match_kind(kind);
    builder.build_with_size(keywords).expect("few keywords")
}

fn plain(keywords: &[&[u8]], fold: bool) -> Counter {
    let dfa = dfa(keywords, fold, MatchKind::Standard);
    Box::new(move |chunk| dfa.find_iter(chunk).count() as u64)
}

fn leftmost(keywords: &[&[u8]], fold: bool) -> Counter {
    let dfa = dfa(keywords, fold, MatchKind::LeftmostFirst);
    Box::new(move |chunk| dfa.find_iter(chunk).count() as u64)
}

fn overlapping(keywords: &[&[u8]], fold: bool) -> Counter {
    let dfa = dfa(keywords, fold, MatchKind::Standard);
    Box::new(move |chunk| dfa.find_overlapping_iter(chunk).count() as u64)
}

fn main() {
    let ac = |name, all, make| Peer { name, all, make };
    let peers = [ac("ac", false, plain), ac("ac-lf", false, leftmost), ac("ac-all", true, overlapping), scan::OWN];
    scan::main(std::env::args().skip(1).collect(), &peers);
}
