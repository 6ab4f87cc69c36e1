//! The time of a compaction (request 107) by the places of its recipes: it should grow as they do.

use crate::clock::measured;
use crate::generate::{recipes_of, store_with_holes, Rng};
use std::hint::black_box;

pub const USAGE: &str = "[ROUNDS]";

const CHUNKS: usize = 65_000;
const FILES: usize = 65_535;

/// The chunk that the next place names.
type Next = fn(&mut Rng) -> usize;

/// Which chunks are named.
const NAMED: [(&str, Next); 3] =
    [("all chunks", |rng| rng.below(CHUNKS)), ("every second", |rng| 2 * rng.below(CHUNKS / 2)), ("one chunk", |_| CHUNKS / 2)];

pub fn main(words: Vec<String>) {
    let rounds = match &words[..] {
        [] => Some(5),
        [rounds] => rounds.parse::<usize>().ok().filter(|rounds| *rounds > 0),
        _ => None,
    };
    let Some(rounds) = rounds else {
        eprintln!("usage: bench --compact {USAGE}");
        std::process::exit(64);
    };
    vault::on_large_stack(|| run(rounds)).expect("a thread can be started");
}

/// Recipes of so many places in 65,535 files of equal length but for one.
fn recipes(places: usize, named: Next) -> Vec<u8> {
    let mut rng = Rng(11);
    let length = |file: usize| places / FILES + usize::from(file < places % FILES);
    recipes_of(&(0..FILES).map(|file| (0..length(file)).map(|_| named(&mut rng)).collect()).collect::<Vec<_>>())
}

fn run(rounds: usize) {
    if vault::IS_MOCK {
        println!("BUILT WITH THE FEATURE mock: compactions are the oracle's, and their times say nothing of the library");
    }
    let chunks: Vec<Vec<u8>> = (0..CHUNKS).map(|k| vec![k as u8; 1_024]).collect();
    let store = store_with_holes(&chunks, 64);
    let (check, fixed) = measured(rounds, || vault::check_store(black_box(&store)).expect("a good store"));
    println!(
        "compaction of a store of {} bytes: {CHUNKS} chunks of 1,024 bytes with holes of 64; recipes of {FILES} files",
        store.len()
    );
    println!("{rounds} rounds, medians, processor time; the store check alone takes {check:.1} ms (loop {fixed:.1} ms)");
    println!("loop: the fixed loop's time beside the row; growth: ns for each place more than in the row above\n");
    println!("named           places   size ms  ns/place   growth  compact ms  ns/place   growth   new bytes     loop ms");
    for (name, named) in NAMED {
        let mut before = (0, 0.0, 0.0);
        for places in [1_000_000, 5_000_000, 10_000_000] {
            before = row(rounds, name, &store, &recipes(places, named), places, before);
        }
    }
}

/// Both calls, with the places and times of the row before. The new store is a good one that stays as it is.
fn row(rounds: usize, name: &str, store: &[u8], recipes: &[u8], places: usize, before: (usize, f64, f64)) -> (usize, f64, f64) {
    let mut out = vault::compact(store, recipes).expect("good recipes");
    assert!(vault::compact(&out, recipes).as_ref() == Ok(&out), "compacted again it is another");
    let length = out.len();
    let (size, _) = measured(rounds, || assert!(vault::compact_size(black_box(store), recipes) == Ok(length as u64)));
    let (compact, fixed) = measured(rounds, || assert!(vault::compact_into(black_box(store), recipes, &mut out) == Ok(length)));
    let each = |time: f64| 1e6 * time / places as f64;
    let growth = |time: f64, earlier: f64| match before.0 {
        0 => "-".to_string(),
        fewer => format!("{:.1}", 1e6 * (time - earlier) / (places - fewer) as f64),
    };
    println!(
        "{name:<12} {places:>9} {size:>9.1} {:>9.1} {:>8} {compact:>11.1} {:>9.1} {:>8} {length:>11} {fixed:>11.1}",
        each(size),
        growth(size, before.1),
        each(compact),
        growth(compact, before.2)
    );
    (places, size, compact)
}
