//! The time of a query (request 109) over the ten million places of `places.rs`, beside a count and a join of the same index: in each row they run in the
//! same rounds. One query has a keyword twice, which a file with a common one soon completes; one lacks its last keyword in all files, one its first.

use crate::clock::{calibration, median, timed};
use crate::places::{options, places_of, ten_million_places, Options};
use std::hint::black_box;

pub use crate::places::USAGE;

/// A keyword that no chunk has.
const ABSENT: &[u8] = b"qzqzqzqz";

pub fn main(words: Vec<String>) {
    let Some(options) = options(&words) else {
        eprintln!("usage: bench --query {USAGE}");
        std::process::exit(64);
    };
    vault::on_large_stack(|| run(&options)).expect("a thread can be started");
}

fn run(options: &Options) {
    if vault::IS_MOCK {
        println!("BUILT WITH THE FEATURE mock: queries are the oracle's, and their times say nothing of the library");
    }
    let (text, store, recipes) = ten_million_places(options);
    println!(
        "queries over {} places, beside a count and a join of the same index in the same rounds; {} rounds, medians, processor time",
        places_of(&recipes),
        options.rounds
    );
    println!(
        "twice: the first keyword twice (a common one: complete in a file's first places); last, first: in no file, for that keyword is nowhere"
    );
    println!("x count, x join: how many times as long the query takes; loop: the fixed loop's time beside the row\n");
    println!("keywords   query   count ms   join ms  lines ms  query ms  ns/place  x count  x join  occurrences  lines  loop ms");
    for (name, words) in [("rare", &text.rare), ("common", &text.common)] {
        for count in [2, 16] {
            let mut keywords: Vec<&[u8]> = words[..count - 1].iter().map(|word| &word[..]).collect();
            keywords.push(ABSENT);
            let list = vault::keyword_list(false, &keywords).expect("different keywords");
            let index = vault::scan(&list, &store).expect("a good store").index;
            let absent = (count - 1) as u8;
            for (kind, query) in [("twice", [0, 0]), ("last", [0, absent]), ("first", [absent, 0])] {
                row(options, [&format!("{count} {name}"), kind], &index, &recipes, &query);
            }
        }
    }
}

/// One row: four calls in each round.
fn row(options: &Options, [keywords, kind]: [&str; 2], index: &[u8], recipes: &[u8], query: &[u8]) {
    let mut list = vault::unbilled::join_bytes(index, recipes).expect("good recipes");
    let mut lines = vault::query_bytes(index, recipes, query).expect("a good query");
    let (occurrences, count) = (list.len() / vault::ROW, lines.len() / vault::line_size(query));
    let mut times: [Vec<f64>; 5] = Default::default();
    for _ in 0..options.rounds {
        times[0].push(calibration());
        times[1].push(timed(|| assert!(vault::count(black_box(index), recipes) == Ok(occurrences as u64))).0);
        times[2].push(timed(|| assert!(vault::unbilled::join_into(black_box(index), recipes, &mut list) == Ok(occurrences))).0);
        times[3].push(timed(|| assert!(vault::query_count(black_box(index), recipes, query) == Ok(count as u64))).0);
        times[4].push(timed(|| assert!(vault::query_into(black_box(index), recipes, query, &mut lines) == Ok(count))).0);
    }
    let [fixed, counted, joined, told, queried] = times.map(|times| 1e3 * median(&times));
    println!(
        "{keywords:<10} {kind:<6} {counted:>9.1} {joined:>9.1} {told:>9.1} {queried:>9.1} {:>9.1} {:>8.2} {:>7.2} {occurrences:>12} {count:>6} {fixed:>8.1}",
        1e6 * queried / places_of(recipes) as f64,
        queried / counted,
        queried / joined
    );
}
