//! Differential test: the proved library beside the oracle, on inputs from a seed.
//!
//!     difftest [CASES] [SEED] [--quick] [--case K]
//!     difftest --huge [STEP]
//!
//! First the cases by hand, then the large ones, then CASES random ones. `--quick` leaves the large ones out, so that
//! valgrind can run it; `--huge` runs only those that want 5 GB of memory. A difference prints the seed and the case, writes its
//! inputs to a folder, and ends with status 1.

mod across;
mod beyond;
mod clients;
mod compaction;
mod compare;
mod damage;
mod fixed;
mod folds;
mod holes;
mod huge;
mod inputs;
mod lanes;
mod pairs;
mod queries;
mod reached;
mod rng;
mod windows;

use compare::{Comparison, Limits, Tally, USUAL};
use inputs::Case;
use oracle::form::{KNOWN, NEWEST};
use pairs::Change;
use rng::Rng;
use std::process::ExitCode;
use std::time::{Duration, Instant};

struct Arguments {
    cases: u64,
    seed: u64,
    quick: bool,
    only: Option<u64>,
    huge: bool,
}

fn arguments() -> Result<Arguments, String> {
    let mut arguments = Arguments { cases: 0, seed: 20_261_115, quick: false, only: None, huge: false };
    let mut numbers = Vec::new();
    let mut words = std::env::args().skip(1);
    while let Some(word) = words.next() {
        let number = |word: Option<String>| word.and_then(|w| w.parse::<u64>().ok());
        match word.as_str() {
            "--quick" => arguments.quick = true,
            "--huge" => arguments.huge = true,
            "--case" => arguments.only = Some(number(words.next()).ok_or("--case wants a number")?),
            _ => numbers.push(number(Some(word.clone())).ok_or(format!("not a number: {word}"))?),
        }
    }
    arguments.cases = match numbers.first() {
        Some(number) => *number,
        None if arguments.huge => 0,
        None if arguments.quick => 150,
        None => 20_000,
    };
    arguments.seed = *numbers.get(1).unwrap_or(&arguments.seed);
    Ok(arguments)
}

fn main() -> ExitCode {
    match arguments() {
        Ok(arguments) if arguments.huge => match on_large_stack(|| huge::run(arguments.cases)) {
            Ok(()) => ExitCode::SUCCESS,
            Err(why) => {
                println!("DIFFERENCE: {why}");
                ExitCode::FAILURE
            }
        },
        Ok(arguments) => on_large_stack(|| run(&arguments)),
        Err(why) => {
            eprintln!("{why}\nusage: difftest [CASES] [SEED] [--quick] [--case K]\n       difftest --huge [STEP]");
            ExitCode::from(2)
        }
    }
}

fn on_large_stack<T: Send>(work: impl FnOnce() -> T + Send) -> T {
    vault::on_large_stack(work).expect("a thread can be started")
}

/// A random case: sound, damaged in one input, in two, made up, noise, for the walk, for the fold, for the ends of 32 bits, for the
/// borders of chunks, or for keywords over many of them.
fn random(rng: &mut Rng) -> Case {
    match rng.below(156) {
        0..=29 => inputs::vault(rng, "vaults").0,
        30..=36 => damaged(rng, "damaged keywords", |rng, case| damage::keywords(rng, &mut case.list)),
        37..=46 => damaged(rng, "damaged store", |rng, case| damage::store(rng, &mut case.store)),
        47..=58 => damaged_index(rng, "damaged index"),
        59..=65 => damaged(rng, "damaged recipes", |rng, case| damage::recipes(rng, &mut case.recipes)),
        66..=75 => two_faults(rng),
        76..=87 => inputs::made_up(rng, "made-up records").case(),
        88..=95 => {
            let mut made_up = inputs::made_up(rng, "made-up records, bad body");
            let bad = rng.below(made_up.entries.len());
            damage::body(rng, &made_up.form, &mut made_up.entries[bad].2);
            made_up.case()
        }
        96..=97 => long_chunks(rng),
        98..=99 => noise(rng),
        100..=111 => lanes::vault(rng),
        112..=119 => folds::vault(rng),
        120..=124 => damaged(rng, "indexes of each mark", |rng, case| case.index = inputs::scanned(rng, case)),
        125 => beyond::random(rng),
        126..=127 => beyond::few(rng),
        128..=131 => damaged(rng, "store damaged at a chunk's borders", |rng, case| damage::borders(rng, &mut case.store)),
        _ => across::random(rng),
    }
}

/// A sound vault, and what is done to it.
fn damaged(rng: &mut Rng, kind: &'static str, spoil: impl FnOnce(&mut Rng, &mut Case)) -> Case {
    let (mut case, _, _) = inputs::vault(rng, kind);
    spoil(rng, &mut case);
    case
}

fn damaged_index(rng: &mut Rng, kind: &'static str) -> Case {
    damaged(rng, kind, |rng, case| {
        case.index = inputs::scanned(rng, case);
        let list = case.list.len();
        case.index.iter_mut().for_each(|index| damage::index(rng, index, list));
    })
}

/// Two faults, in one input or in two.
fn two_faults(rng: &mut Rng) -> Case {
    let mut case = damaged_index(rng, "two faults");
    let list = case.list.len();
    for _ in 0..2 {
        match rng.below(5) {
            0 => damage::keywords(rng, &mut case.list),
            1 => damage::store(rng, &mut case.store),
            2 => damage::recipes(rng, &mut case.recipes),
            3 => case.keys = vec![rng.bytes(20), rng.bytes(19), vec![]],
            _ => damage::index(rng, case.index.get_or_insert_default(), list),
        }
    }
    case
}

/// Chunks with hundreds of occurrences, around the borders of the kinds.
fn long_chunks(rng: &mut Rng) -> Case {
    let (mut case, words, keys) = inputs::vault(rng, "long chunks");
    let word = rng.pick(&words.keywords.words).clone();
    let mut chunks = Vec::new();
    for key in keys.iter().take(4) {
        let count = rng.range(250, 260);
        let mut data: Vec<u8> = word.iter().copied().cycle().take(word.len() * count).collect();
        data.truncate(data.len() - rng.below(2));
        data.truncate(NEWEST.longest_chunk as usize);
        chunks.push((*key, data));
    }
    case.store = holes::store(rng, Some(&words.keywords), &chunks);
    case
}

fn noise(rng: &mut Rng) -> Case {
    let mark = rng.pick(&KNOWN).mark;
    let mut bytes = |mark: &[u8]| {
        let length = rng.below(120);
        let mut bytes = rng.bytes(length);
        if rng.percent(70) {
            bytes.splice(0..bytes.len().min(mark.len()), mark.iter().copied());
        }
        bytes
    };
    Case {
        kind: "noise",
        list: bytes(&[1, 0, 2]),
        store: bytes(&[0x44, 0x56, 0x31, 0x0A, 1, 0, 0, 0]),
        index: Some(bytes(&[&mark[..], &[1, 0, 0, 0, 1, 0, 1, 65]].concat())),
        recipes: bytes(&[2, 0, 0, 0, 1, 0, 0, 0]),
        keys: vec![bytes(&[]), vec![1; 20]],
        queries: vec![],
        lents: vec![],
    }
}

struct Run<'a> {
    seed: u64,
    tally: Tally,
    limits: &'a Limits,
}

impl Run<'_> {
    /// Runs a case, and the same vault with its store's chunks in another order, and with other bytes in its store's holes.
    fn one(&mut self, number: &str, case: &Case, rng: &mut Rng) -> bool {
        let changes: [(Change, fn(&mut Rng, &Case) -> Option<Case>); 2] =
            [(Change::Order, inputs::shuffled), (Change::Holes, holes::refilled)];
        self.alone(number, case, None, rng)
            && changes.into_iter().all(|(change, made)| {
                made(rng, case).is_none_or(|other| self.alone(number, &other, Some((change, &case.store)), rng))
            })
    }

    /// Runs a case, first against another store, or where none is given against its own compacted; a difference is told and its inputs are kept.
    fn alone(&mut self, number: &str, case: &Case, other: Option<(Change, &[u8])>, rng: &mut Rng) -> bool {
        let mut comparison = Comparison { tally: &mut self.tally, rng, limits: self.limits };
        let pair = match other {
            Some((change, other)) => comparison.pair(change, case, other),
            None => comparison.compacted(case),
        };
        let verdict = pair.and_then(|()| comparison.run(case));
        let Err(why) = verdict else { return true };
        println!("\nDIFFERENCE in case {number} of seed {}, kind \"{}\"", self.seed, case.kind);
        println!("  {why}");
        println!("  again: difftest 0 {} --case {number}", self.seed);
        let folder = format!("difftest-{}-{number}", self.seed);
        match keep(&folder, case, other) {
            Ok(()) => println!("  its inputs are in {folder}/"),
            Err(error) => println!("  its inputs could not be written to {folder}/: {error}"),
        }
        false
    }
}

fn keep(folder: &str, case: &Case, other: Option<(Change, &[u8])>) -> std::io::Result<()> {
    std::fs::create_dir_all(folder)?;
    let write = |name: &str, bytes: &[u8]| std::fs::write(format!("{folder}/{name}"), bytes);
    write("words.bin", &case.list)?;
    write("store.bin", &case.store)?;
    write("recipes.bin", &case.recipes)?;
    case.index.as_ref().map_or(Ok(()), |index| write("index.bin", index))?;
    other.map_or(Ok(()), |(_, other)| write("other-store.bin", other))?;
    case.queries.iter().enumerate().try_for_each(|(k, query)| write(&format!("query{k}.bin"), query))?;
    case.lents.iter().enumerate().try_for_each(|(k, lent)| write(&format!("lent{k}.txt"), format!("{lent:?}\n").as_bytes()))?;
    case.keys.iter().enumerate().try_for_each(|(k, key)| write(&format!("key{k}.bin"), key))
}

/// Case numbers of the cases by hand and of the large ones, so that each can be run alone.
const BY_HAND: u64 = 1_000_000_000;
const LARGE: u64 = 2_000_000_000;

fn run(arguments: &Arguments) -> ExitCode {
    let started = Instant::now();
    let mut run = Run { seed: arguments.seed, tally: Tally::default(), limits: &USUAL };
    println!(
        "library: {}",
        if vault::IS_MOCK { "the unproved stand-in (feature mock): this tests nothing but the test" } else { "libvault_c.a" }
    );
    println!("seed {}, {} random cases{}", arguments.seed, arguments.cases, if arguments.quick { ", quick" } else { "" });
    if !all(arguments, &mut run, started) {
        return ExitCode::FAILURE;
    }
    report(&run.tally, started.elapsed());
    if arguments.only.is_some() || arguments.quick || arguments.cases < 5_000 {
        return ExitCode::SUCCESS;
    }
    let lacking = [
        ("codes that no case reached", missing(&run.tally)),
        ("bytes at the fold's borders that no case brought together", run.tally.meetings.missing()),
        ("holes that no good store had", run.tally.missing_holes()),
        ("what no compaction came upon", run.tally.compactions.missing(&compaction::ALL)),
        ("what no join came upon", run.tally.crossings.missing(&across::ALL)),
        ("what no query came upon", run.tally.queries.missing(&queries::ALL)),
        ("what no key or tally came upon", run.tally.clients.missing(&clients::ALL)),
    ];
    for (what, which) in lacking.iter().filter(|(_, which)| !which.is_empty()) {
        println!("FAILED: {what}: {}", which.join(", "));
    }
    ExitCode::from(u8::from(lacking.iter().any(|(_, which)| !which.is_empty())))
}

fn all(arguments: &Arguments, run: &mut Run, started: Instant) -> bool {
    let wanted = |number: u64| arguments.only.is_none_or(|only| only == number);
    for (k, case) in fixed::small().iter().enumerate() {
        let number = BY_HAND + k as u64;
        if wanted(number) && !run.one(&number.to_string(), case, &mut Rng::of_case(arguments.seed, number)) {
            return false;
        }
    }
    if !arguments.quick {
        for (k, (name, make)) in fixed::large().iter().enumerate() {
            let number = LARGE + k as u64;
            if !wanted(number) {
                continue;
            }
            eprintln!("[{:>6.1} s] large: {name}", started.elapsed().as_secs_f64());
            let mut rng = Rng::of_case(arguments.seed, number);
            for case in make(&mut rng) {
                if !run.one(&number.to_string(), &case, &mut rng) {
                    return false;
                }
            }
        }
    }
    let mut told = Instant::now();
    for number in 0..arguments.cases.max(arguments.only.filter(|only| *only < BY_HAND).map_or(0, |only| only + 1)) {
        if !wanted(number) {
            continue;
        }
        let mut rng = Rng::of_case(arguments.seed, number);
        let case = random(&mut rng);
        if !run.one(&number.to_string(), &case, &mut rng) {
            return false;
        }
        if told.elapsed() > Duration::from_secs(10) {
            eprintln!("[{:>6.1} s] {number} random cases", started.elapsed().as_secs_f64());
            told = Instant::now();
        }
    }
    true
}

/// The codes that each operation can give.
const REACHABLE: [(&str, &[u8]); 14] = [
    ("check_keywords", &[0, 1, 2, 3, 4]),
    ("check_store", &[0, 5, 6, 7, 8, 20]),
    ("check_index", &[0, 1, 2, 3, 4, 10, 11, 12, 13]),
    ("scan_size", &[0, 1, 2, 3, 4, 5, 6, 7, 8, 20]),
    ("scan", &[0, 1, 2, 3, 4, 5, 6, 7, 8, 9, 20]),
    ("count", &[0, 1, 2, 3, 4, 10, 11, 12, 13, 14, 15, 16, 17]),
    ("join", &[0, 1, 2, 3, 4, 10, 11, 12, 13, 14, 15, 16, 17, 18, 22, 23]),
    ("query_count", &[0, 1, 2, 3, 4, 10, 11, 12, 13, 14, 15, 16, 17, 21]),
    ("query", &[0, 1, 2, 3, 4, 10, 11, 12, 13, 14, 15, 16, 17, 18, 21]),
    ("find_chunk", &[0, 5, 6, 7, 8, 15, 19, 20]),
    ("find_body", &[0, 1, 2, 3, 4, 10, 11, 12, 13, 15, 19]),
    ("search", &[0, 1, 2, 3, 4, 5, 6, 7, 8, 9, 14, 15, 16, 18, 20, 22, 23]),
    ("compact_size", &[0, 5, 6, 7, 8, 14, 15, 20]),
    ("compact", &[0, 5, 6, 7, 8, 9, 14, 15, 20]),
];

fn missing(tally: &Tally) -> Vec<String> {
    let mut missing = Vec::new();
    for (call, codes) in REACHABLE {
        missing
            .extend(codes.iter().filter(|code| !tally.codes.contains_key(&(call, **code))).map(|code| format!("{call} {code}")));
    }
    missing
}

fn report(tally: &Tally, time: Duration) {
    println!("\ncases by kind");
    for (kind, count) in &tally.kinds {
        println!("  {count:>8}  {kind}");
    }
    println!("\ncalls by operation and code (0: done)");
    for (call, _) in REACHABLE {
        let reached: Vec<String> =
            tally.codes.iter().filter(|((c, _), _)| *c == call).map(|((_, code), count)| format!("{code}:{count}")).collect();
        println!("  {call:<15} {}", reached.join(" "));
    }
    tally.meetings.report();
    let marks: Vec<String> = tally.marks.iter().map(|(mark, n)| format!("{} {n}", mark[..3].escape_ascii())).collect();
    println!("\ngood indexes by mark: {}; good stores with a chunk longer than 65,535 bytes: {}", marks.join(", "), tally.long);
    println!("holes in good stores: {}", tally.holes_by_place().map(|(place, count)| format!("{place} {count}")).join(", "));
    println!("compactions: {}", tally.compactions.report(&compaction::ALL));
    println!("keywords across chunks: {}", tally.crossings.report(&across::ALL));
    println!("queries: {}", tally.queries.report(&queries::ALL));
    println!("keys and tallies: {}", tally.clients.report(&clients::ALL));
    let calls: u64 = tally.codes.values().sum();
    println!(
        "\n{} cases, {calls} answers compared, {} bytes of buffers, {} occurrences listed, {} lines of queries,",
        tally.kinds.values().sum::<u64>(),
        tally.bytes,
        tally.occurrences,
        tally.lines
    );
    println!("{} lists the same as the direct search of the restored files,", tally.direct);
    println!(
        "{} moves, of {} stores counted by strings too, {} scans in buffers as long as the bound,",
        tally.moves, tally.by_strings, tally.one_walk
    );
    for (change, count) in &tally.pairs {
        println!("{count} answers the same with {},", change.name());
    }
    println!("{:.1} s", time.as_secs_f64());
    println!("no difference");
}
