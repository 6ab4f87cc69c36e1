//! The time of a join by its places: over chunks of 31 bytes and more, which no keyword crosses whole, and over chains of chunks that are shorter
//! than the keywords (request 108). Each index is what the library's own scan writes, under whatever mark it writes, so that two builds of this
//! over two libraries can be compared row by row. What a library refuses is told in its row.

use crate::clock::measured;
use crate::generate::{recipes_of, store_of, vault, Rng, Vault};
use std::hint::black_box;
use vault::forms::Form;

pub const USAGE: &str = "[ROUNDS] [--few]";

pub struct Options {
    pub rounds: usize,
    /// A hundredth of the places.
    pub few: bool,
}

pub fn options(words: &[String]) -> Option<Options> {
    let mut options = Options { rounds: 5, few: false };
    for word in words {
        match word.as_str() {
            "--few" => options.few = true,
            _ => options.rounds = word.parse::<usize>().ok().filter(|rounds| *rounds > 0)?,
        }
    }
    Some(options)
}

pub fn main(words: Vec<String>) {
    let Some(options) = options(&words) else {
        eprintln!("usage: bench --places {USAGE}");
        std::process::exit(64);
    };
    vault::on_large_stack(|| run(&options)).expect("a thread can be started");
}

/// So many files of so many places each, every place a chunk's number.
fn files(count: usize, length: usize, mut next: impl FnMut(usize) -> usize) -> Vec<Vec<usize>> {
    (0..count).map(|_| (0..length).map(&mut next).collect()).collect()
}

fn run(options: &Options) {
    if vault::IS_MOCK {
        println!("BUILT WITH THE FEATURE mock: joins are the oracle's, and their times say nothing of the library");
    }
    println!("joins by place; {} rounds, medians, processor time; loop: the fixed loop's time beside the row", options.rounds);
    println!("the index is what the library's scan writes; its check is a part of the join\n");
    println!("chunks                        keywords                  mark     places       join ms  ns/place  occurrences     loop ms");
    ordinary(options);
    chains(options);
}

/// 65,000 chunks of text of 31 to 93 bytes, any of them in 1,000 files of 10,000 places: the text with its words, the store, the recipes.
pub fn ten_million_places(options: &Options) -> (Vault, Vec<u8>, Vec<u8>) {
    let text = vault(5 << 20);
    let mut rest = &text.store[8 + 28 * text.chunks..];
    let mut chunks = Vec::new();
    for k in 0..65_000 {
        let (chunk, behind) = rest.split_at(31 + k % 63);
        chunks.push(chunk);
        rest = behind;
    }
    let store = store_of(&chunks);
    let mut rng = Rng(13);
    let recipes = recipes_of(&files(1_000, if options.few { 100 } else { 10_000 }, |_| rng.below(65_000)));
    (text, store, recipes)
}

fn ordinary(options: &Options) {
    let (text, store, recipes) = ten_million_places(options);
    for (name, words) in [("rare", &text.rare), ("common", &text.common)] {
        for count in [1, 16] {
            let keywords: Vec<&[u8]> = words[..count].iter().map(|word| &word[..]).collect();
            row(options, ["text, 31 to 93 bytes", &format!("{count} {name}")], &store, &keywords, &recipes);
        }
    }
}

/// Keywords of 32 bytes over chunks of one byte: all alike, by turns, of two letters at random; and longer chunks in which each start is one to try.
fn chains(options: &Options) {
    let mut rng = Rng(17);
    let alike: Vec<Vec<u8>> = (17..=32).rev().map(|n| vec![b'A'; n]).collect();
    let random: Vec<Vec<u8>> = (0..16).map(|_| (0..32).map(|_| b"AB"[rng.below(2)]).collect()).collect();
    let length = if options.few { 100 } else { 1_000 };
    let letters = store_of(&[b"A", b"B"]);
    let alone = recipes_of(&files(1_000, length, |_| 0));
    let turns = recipes_of(&files(1_000, length, |p| p % 2));
    let mixed = recipes_of(&files(1_000, length, |_| rng.below(2)));
    for count in [1, 16] {
        let [alike, random] = [&alike, &random].map(|words| words[..count].iter().map(|word| &word[..]).collect::<Vec<&[u8]>>());
        row(options, ["A", &format!("{count} of A")], &letters, &alike, &alone);
        row(options, ["A, B at random", &format!("{count} of A")], &letters, &alike, &mixed);
        row(options, ["A, B at random", &format!("{count} of A, B at random")], &letters, &random, &mixed);
    }
    row(options, ["A, B by turns", "1 of A, B by turns"], &letters, &[&b"AB".repeat(16)], &turns);
    for size in [15, 30] {
        row(options, [&format!("A x {size}"), "1 of A"], &store_of(&[vec![b'A'; size]]), &[&alike[0]], &alone);
    }
}

/// The places of good recipes.
pub fn places_of(recipes: &[u8]) -> usize {
    let files = u32::from_le_bytes([recipes[0], recipes[1], recipes[2], recipes[3]]) as usize;
    (recipes.len() - 4 - 4 * files) / 20
}

/// One row: what the store's chunks and the keywords are, and the join of these recipes.
fn row(options: &Options, [chunks, words]: [&str; 2], store: &[u8], keywords: &[&[u8]], recipes: &[u8]) {
    let list = vault::keyword_list(false, keywords).expect("different keywords");
    let index = vault::scan(&list, store).expect("a good store").index;
    let places = places_of(recipes);
    print!("{chunks:<29} {words:<25} {:<4} {places:>10}", Form::of(&index).name());
    let mut out = match vault::unbilled::join_bytes(&index, recipes) {
        Ok(out) => out,
        Err(why) => return println!("  {}", why.to_string().split(':').next().unwrap_or("refused")),
    };
    let count = out.len() / vault::ROW;
    let (time, fixed) =
        measured(options.rounds, || assert!(vault::unbilled::join_into(black_box(&index), recipes, &mut out) == Ok(count)));
    println!(" {time:>13.1} {:>9.1} {count:>12} {fixed:>11.1}", 1e6 * time / places as f64);
}
