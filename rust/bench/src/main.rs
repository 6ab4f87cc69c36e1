//! How long a search by scan and join takes, beside restoring each file and searching it.
//!
//!     bench [MEGABYTES] [ROUNDS] [--fresh] [--no-plain] [--directories]
//!     bench --scan [MEGABYTES] [ROUNDS] [FOLDER..]
//!     bench --compact [ROUNDS]
//!     bench --places [ROUNDS] [--few]
//!     bench --query [ROUNDS] [--few]
//!     bench --tally [ROUNDS] [--few]
//!
//! Every row's methods run one after the other in each round, so that a row's ratios are of one run; times are medians of
//! the rounds, in processor time of the thread. With each row stands the time of a fixed loop: rows whose loop took longer
//! were run in a slow phase of the machine and only their ratios say something.

use bench::clock::{self, calibration, median, timed};
use bench::generate::{self, index_of, key, recipes, recipes_of, store_of, vault, Vault};
use bench::peers::{plain, restore_each, Automaton, Chunks};
use bench::{clients, compaction, places, queries, scan};
use std::hint::black_box;

struct Options {
    megabytes: usize,
    rounds: usize,
    /// Buffers are made inside the timed part.
    fresh: bool,
    plain: bool,
    /// Only the largest directories and ten million places.
    directories: bool,
}

fn options() -> Option<Options> {
    let mut options = Options { megabytes: 16, rounds: 5, fresh: false, plain: true, directories: false };
    let mut numbers = Vec::new();
    for word in std::env::args().skip(1) {
        match word.as_str() {
            "--fresh" => options.fresh = true,
            "--no-plain" => options.plain = false,
            "--directories" => options.directories = true,
            _ => numbers.push(word.parse::<usize>().ok().filter(|n| *n > 0)?),
        }
    }
    options.megabytes = *numbers.first().unwrap_or(&options.megabytes);
    options.rounds = *numbers.get(1).unwrap_or(&options.rounds);
    Some(options)
}

fn main() {
    let mut words = std::env::args().skip(1);
    match words.next().as_deref() {
        Some("--scan") => return scan::main(words.collect(), &[scan::OWN]),
        Some("--compact") => return compaction::main(words.collect()),
        Some("--places") => return places::main(words.collect()),
        Some("--query") => return queries::main(words.collect()),
        Some("--tally") => return clients::main(words.collect()),
        _ => (),
    }
    let Some(options) = options() else {
        eprintln!(
            "usage: bench [MEGABYTES] [ROUNDS] [--fresh] [--no-plain] [--directories]\n       bench --scan {}\n       bench --compact {}\n       \
             bench --places {}\n       bench --query {}\n       bench --tally {}",
            scan::USAGE,
            compaction::USAGE,
            places::USAGE,
            queries::USAGE,
            clients::USAGE
        );
        std::process::exit(64);
    };
    vault::on_large_stack(|| run(&options)).expect("a thread can be started");
}

fn run(options: &Options) {
    if vault::IS_MOCK {
        println!("BUILT WITH THE FEATURE mock: scan and join are the oracle's, and their times say nothing of the library");
    }
    if options.directories {
        directories(options);
        return many_places(options);
    }
    let vault = vault(options.megabytes << 20);
    println!(
        "store: {} bytes, {} chunks of 4 to 12 KiB of made-up text; {} rounds, medians, processor time",
        vault.store.len(),
        vault.chunks,
        options.rounds
    );
    match options.fresh {
        false => println!("buffers: written to before the first round and used again (no page of them is new when timed)"),
        true => println!("buffers: made and zeroed inside each timed part"),
    }
    println!("plain, automaton: restore each file by its recipe, then search it; scan + join: ours; both give the same list");
    println!("x plain, x autom: how many times as fast scan + join is; loop: the fixed loop's time beside the row\n");
    println!(" ratio  keywords     plain  automaton      scan   scan       join  scan+join  x plain  x autom   ns/place  occurrences     loop");
    println!("                        ms         ms        ms   MB/s         ms         ms                                                  ms");
    let mut rows = Vec::new();
    for ratio in [1.0, 3.5, 10.0, 50.0] {
        for count in [1, 4, 16] {
            for common in [true, false] {
                rows.push(row(options, &vault, ratio, count, common));
            }
        }
        println!();
    }
    a_place_and_an_occurrence(&rows);
    directories(options);
    many_places(options);
}

struct Row {
    count: usize,
    common: bool,
    ratio: f64,
    join: f64,
    places: usize,
    occurrences: usize,
}

/// One row: four methods in each round.
fn row(options: &Options, vault: &Vault, ratio: f64, count: usize, common: bool) -> Row {
    let words = if common { &vault.common } else { &vault.rare };
    let keywords: Vec<&[u8]> = words[..count].iter().map(|w| &w[..]).collect();
    let list = vault::keyword_list(false, &keywords).expect("different keywords");
    let (recipes, places) = recipes(vault.chunks, ratio);
    let chunks = Chunks::new(&vault.store);
    let automaton = Automaton::new(&keywords, false);

    // The list, once by each method: they must agree. What they wrote stays as warm buffers.
    let mut index = vault::scan(&list, &vault.store).expect("a good store").index;
    let mut out = vault::unbilled::join_bytes(&index, &recipes).expect("good recipes");
    let occurrences = out.len() / vault::ROW;
    let mut found = Vec::with_capacity(occurrences);
    let mut restored = Vec::new();
    restore_each(&chunks, &recipes, &mut restored, |file, data| automaton.search(file, data, &mut found));
    assert!(vault::occurrences(&out).eq(found.iter().copied()), "the automaton's list and ours differ");

    let mut times: [Vec<f64>; 5] = Default::default();
    for _ in 0..options.rounds {
        times[0].push(calibration());
        if options.fresh {
            found = Vec::new();
            restored = Vec::new();
        }
        if options.plain {
            found.clear();
            times[1].push(
                timed(|| restore_each(&chunks, &recipes, &mut restored, |file, data| plain(&keywords, file, data, &mut found))).0,
            );
            assert!(found.len() == occurrences, "the plain loop's list and ours differ");
        }
        if options.fresh {
            found = Vec::new();
            restored = Vec::new();
        }
        found.clear();
        times[2].push(
            timed(|| restore_each(&chunks, &recipes, &mut restored, |file, data| automaton.search(file, data, &mut found))).0,
        );
        let (index_length, out_length) = (index.len(), out.len());
        times[3].push(
            timed(|| {
                if options.fresh {
                    index = vec![0; index_length];
                }
                vault::scan_into(&list, &vault.store, &mut index).expect("it was scanned before")
            })
            .0,
        );
        times[4].push(
            timed(|| {
                if options.fresh {
                    out = vec![0; out_length];
                }
                vault::unbilled::join_into(&index, &recipes, &mut out).expect("it was joined before")
            })
            .0,
        );
    }
    let [fixed, by_plain, by_automaton, scan, join] = times.map(|t| 1e3 * median(&t));
    let sum = scan + join;
    println!(
        "{ratio:>6}  {count:>2} {:<6} {by_plain:>9.1} {by_automaton:>10.1} {scan:>9.1} {:>6.0} {join:>10.2} {sum:>10.1} {:>8.1} {:>8.1} {:>10.1} {occurrences:>12} {fixed:>8.1}",
        if common { "common" } else { "rare" },
        vault.store.len() as f64 / 1e3 / scan,
        by_plain / sum,
        by_automaton / sum,
        1e6 * join / places as f64,
    );
    Row { count, common, ratio, join, places, occurrences }
}

/// From the rows of the highest ratio: rare and common keywords differ in occurrences and not in places.
fn a_place_and_an_occurrence(rows: &[Row]) {
    println!("join at ratio 50, parted by rare and common keywords");
    for count in [1, 4, 16] {
        let of = |common: bool| rows.iter().find(|r| r.ratio == 50.0 && r.count == count && r.common == common);
        if let (Some(common), Some(rare)) = (of(true), of(false)) {
            let more = common.occurrences as f64 - rare.occurrences as f64;
            let occurrence = 1e6 * (common.join - rare.join) / more.max(1.0);
            let place = (1e6 * rare.join - occurrence * rare.occurrences as f64) / rare.places as f64;
            println!("  {count:>2} keywords: {place:>6.1} ns a place, {occurrence:>6.1} ns an occurrence");
        }
    }
    println!();
}

/// The median time of some work, in milliseconds, and the fixed loop's beside it.
fn measured(options: &Options, work: impl FnMut()) -> (f64, f64) {
    clock::measured(options.rounds, work)
}

/// The largest directory: checks and lookups.
fn directories(options: &Options) {
    let chunks: Vec<Vec<u8>> = (0..65_000).map(|_| vec![b'x']).collect();
    let store = store_of(&chunks);
    let list = vault::keyword_list(false, &[b"invoice"]).expect("a keyword");
    let index = index_of(&list, 65_000, &[]);
    println!("65,000 entries");
    let tell = |what: &str, (time, fixed): (f64, f64)| {
        println!("  {what:<36} {time:>9.3} ms, {:>6.1} ns an entry (loop {fixed:.1} ms)", 1e6 * time / 65_000.0)
    };
    tell("store check", measured(options, || vault::check_store(black_box(&store)).expect("a good store")));
    tell("index check, empty bodies", measured(options, || vault::check_index(black_box(&index)).expect("a good index")));
    // Fingerprints that the directory's hash, a weighted sum of five fields modulo 65,521, can't tell apart: once, as it is slow.
    let mut chain = store.clone();
    for k in 0..65_000u32 {
        let at = 8 + 28 * k as usize;
        chain[at..at + 20].fill(0);
        chain[at + 16..at + 20].copy_from_slice(&(65_521 * k).to_le_bytes());
    }
    let once = Options { rounds: 1, ..*options };
    tell("store check, all in one hash chain", measured(&once, || vault::check_store(black_box(&chain)).expect("a good store")));
    tell(
        "chunk lookup, with the check",
        measured(options, || {
            black_box(vault::find_chunk(&store, &key(64_999)).expect("it is there"));
        }),
    );
    println!();
}

/// Ten million places of which none, one, or one in each file has an occurrence: what the others cost must not depend on it.
fn many_places(options: &Options) {
    println!("join of 65,000 entries and 10,000,000 places in 1,000 files; one chunk has an occurrence, and a file names it once or never");
    let mut rng = generate::Rng(3);
    let mut files: Vec<Vec<usize>> = (0..1000).map(|_| (0..10_000).map(|_| rng.below(64_999)).collect()).collect();
    let words: Vec<Vec<u8>> = (0..16u8).map(|k| vec![b'a' + k; 8]).collect();
    // Keyword 0, kind 1: no prefix, no suffix, one occurrence, at offset 100.
    let body = [vec![0, 1, 0, 0, 1], vault::forms::NEWEST.field(100)].concat();
    for named in [0, 1, 1000] {
        files[..named].iter_mut().for_each(|file| file[5000] = 64_999);
        let recipes = recipes_of(&files);
        for count in [1, 16] {
            let keywords: Vec<&[u8]> = words[..count].iter().map(|w| &w[..]).collect();
            let list = vault::keyword_list(false, &keywords).expect("different keywords");
            let index = index_of(&list, 65_000, &body);
            let mut out = vec![0; named * vault::ROW];
            let (time, fixed) = measured(options, || {
                assert!(vault::unbilled::join_into(&index, &recipes, &mut out).expect("good recipes") == named);
            });
            println!(
                "  {count:>2} keywords, {named:>4} files with an occurrence: {time:>9.1} ms, {:>6.1} ns a place (loop {fixed:.1} ms)",
                1e6 * time / 1e7
            );
        }
    }
}
