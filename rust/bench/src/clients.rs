//! What a key of four clients costs a join (request 110), over the ten million places of `places.rs`: beside it, in the same rounds, a join whose
//! keywords are all one client's, and a count, which has no key and writes no list. Both joins list the same; the row has the ratios.

use crate::clock::{calibration, median, timed};
use crate::places::{options, places_of, ten_million_places, Options};
use std::hint::black_box;
use vault::{Tally, ONE_CLIENT};

pub use crate::places::USAGE;

pub fn main(words: Vec<String>) {
    let Some(options) = options(&words) else {
        eprintln!("usage: bench --tally {USAGE}");
        std::process::exit(64);
    };
    vault::on_large_stack(|| run(&options)).expect("a thread can be started");
}

fn run(options: &Options) {
    if vault::IS_MOCK {
        println!("BUILT WITH THE FEATURE mock: joins are the oracle's, and their times say nothing of the library");
    }
    let (text, store, recipes) = ten_million_places(options);
    println!(
        "joins of {} places with a key of one client and of four, in the same rounds; {} rounds, medians, processor time",
        places_of(&recipes),
        options.rounds
    );
    println!("x one: how many times as long the join with four clients takes; x count: the same beside a count; loop: the fixed loop's time beside the row\n");
    println!("keywords    count ms    one ms   four ms   x one  x count  occurrences  loop ms");
    for (name, words) in [("rare", &text.rare), ("common", &text.common)] {
        for count in [1, 4, 16] {
            let keywords: Vec<&[u8]> = words[..count].iter().map(|word| &word[..]).collect();
            let list = vault::keyword_list(false, &keywords).expect("different keywords");
            let index = vault::scan(&list, &store).expect("a good store").index;
            row(options, &format!("{count} {name}"), &index, &recipes);
        }
    }
}

/// One row: a count and two joins in each round. The tallies run on, and must end with as many occurrences as were listed.
fn row(options: &Options, keywords: &str, index: &[u8], recipes: &[u8]) {
    let mut list = vault::unbilled::join_bytes(index, recipes).expect("good recipes");
    let occurrences = list.len() / vault::ROW;
    let four = vault::key(&std::array::from_fn::<u8, 16, _>(|k| k as u8 % 4));
    let (mut one_tally, mut four_tally) = (Tally::default(), Tally::default());
    let mut times: [Vec<f64>; 4] = Default::default();
    for _ in 0..options.rounds {
        times[0].push(calibration());
        times[1].push(timed(|| assert!(vault::count(black_box(index), recipes) == Ok(occurrences as u64))).0);
        let mut joined = |key: &[u8], tally: &mut Tally| {
            timed(|| assert!(vault::join_into(black_box(index), recipes, black_box(key), tally, &mut list) == Ok(occurrences))).0
        };
        times[2].push(joined(&ONE_CLIENT, &mut one_tally));
        times[3].push(joined(&four, &mut four_tally));
    }
    let all = (options.rounds * occurrences) as u64;
    assert!(one_tally.counts == [all, 0, 0, 0] && four_tally.counts.iter().sum::<u64>() == all, "the tallies are not the lists'");
    let [fixed, counted, one, four] = times.map(|times| 1e3 * median(&times));
    println!(
        "{keywords:<10} {counted:>9.1} {one:>9.1} {four:>9.1} {:>7.3} {:>8.2} {occurrences:>12} {fixed:>8.1}",
        four / one,
        four / counted
    );
}
