//! The scan beside Aho-Corasick automata over the same chunks, on real text and on the worst keywords.
//!
//! All methods of a row run one after the other in each round; best and median of the rounds are told, in processor time of the
//! thread, with the times of two fixed loops beside them. In a slow phase of the machine the throughput loop takes up to twice
//! its time, the latency loop hardly more: rows of such phases say something by their ratios only.

use crate::clock::{best, calibration, latency, median, timed};
use crate::generate::{recipes_of, store_of};
use crate::peers::Automaton;
use crate::text;
use std::hint::black_box;
use std::path::PathBuf;

/// Counts the finds in a chunk.
pub type Counter = Box<dyn Fn(&[u8]) -> u64>;

/// What the scan is compared with.
#[derive(Clone, Copy)]
pub struct Peer {
    pub name: &'static str,
    /// Whether it counts every occurrence, also those that overlap others.
    pub all: bool,
    pub make: fn(&[&[u8]], bool) -> Counter,
}

/// The benchmark's own automaton: a full table, one read a byte.
pub const OWN: Peer = Peer { name: "own", all: true, make: own };

fn own(keywords: &[&[u8]], fold: bool) -> Counter {
    let automaton = Automaton::new(keywords, fold);
    Box::new(move |chunk| automaton.count(chunk))
}

pub const USAGE: &str = "[MEGABYTES] [ROUNDS] [FOLDER..]";

/// The length of all chunks but the last.
const CHUNK: usize = 8192;

/// Chunk lengths to compare: the longest of the old mark, which a library may walk in one go, and the longest of all.
const LENGTHS: [usize; 2] = [65_535, 1_048_576];

/// Keywords of the worst lists run over so many bytes of one letter: their index may have 32 times as many.
const WORST: usize = 2 << 20;

/// Scans of a store without chunks in each timed part.
const BUILDS: usize = 50;

struct Options {
    megabytes: usize,
    rounds: usize,
    folders: Vec<PathBuf>,
}

fn options(words: Vec<String>) -> Option<Options> {
    let mut options = Options { megabytes: 16, rounds: 7, folders: vec![] };
    let mut numbers = Vec::new();
    for word in words {
        match word.parse::<usize>() {
            Ok(number) => numbers.push(number),
            Err(_) if word.starts_with('-') => return None,
            Err(_) => options.folders.push(word.into()),
        }
    }
    if numbers.contains(&0) || numbers.len() > 2 {
        return None;
    }
    options.megabytes = *numbers.first().unwrap_or(&options.megabytes);
    options.rounds = *numbers.get(1).unwrap_or(&options.rounds);
    if options.folders.is_empty() {
        options.folders = vec!["/usr/include".into(), "/usr/share".into()];
    }
    Some(options)
}

/// The program, over these peers.
pub fn main(words: Vec<String>, peers: &[Peer]) {
    let Some(options) = options(words) else {
        eprintln!("usage: bench --scan {USAGE}\n       bench-ac {USAGE}");
        std::process::exit(64);
    };
    vault::on_large_stack(|| run(&options, peers)).expect("a thread can be started");
}

fn run(options: &Options, peers: &[Peer]) {
    if vault::IS_MOCK {
        println!("BUILT WITH THE FEATURE mock: the scan is the oracle's, and its times say nothing of the library");
    }
    let text = text::collect(&options.folders, options.megabytes << 20);
    let (common, rare) = text::keywords(&text);
    if common.len() < 16 || rare.len() < 16 {
        eprintln!("too little text under {:?}: name other folders", options.folders);
        std::process::exit(64);
    }
    let chunks: Vec<&[u8]> = text.chunks(CHUNK).collect();
    let store = Store::new(&chunks);
    println!("text: {} bytes of sources under {:?}, {} chunks of {CHUNK} bytes", text.len(), options.folders, chunks.len());
    for (name, words) in [("common", &common), ("rare", &rare)] {
        let told: Vec<String> = words.iter().map(|(word, count)| format!("{} {count}", word.escape_ascii())).collect();
        println!("{name} (words of the text, and how often): {}", told.join(", "));
    }
    heading(options, peers);
    for (name, words) in [("common", &common), ("rare", &rare)] {
        for count in [1, 4, 16] {
            let keywords: Vec<&[u8]> = words[..count].iter().map(|(word, _)| &word[..]).collect();
            for fold in [false, true] {
                row(options, peers, &format!("{count} {name}"), &store, &keywords, fold);
            }
        }
    }
    let run = vec![b'a'; CHUNK];
    let runs = Store::new(&vec![&run[..]; WORST / CHUNK]);
    let lists = worst_lists();
    for (name, words) in &lists[..2] {
        row(options, peers, name, &runs, &words.iter().map(|word| &word[..]).collect::<Vec<_>>(), false);
    }
    by_length(options, &text, &common, &rare);
    println!("\ntable: a scan of a store without chunks, {BUILDS} in each round, in microseconds");
    let sets = [("common", &common), ("rare", &rare)];
    for (name, words) in sets.iter().flat_map(|(name, words)| [1, 4, 16].map(|n| (format!("{n} {name}"), &words[..n]))) {
        build(options, &name, &words.iter().map(|(word, _)| &word[..]).collect::<Vec<_>>());
    }
    for (name, words) in &lists {
        build(options, name, &words.iter().map(|word| &word[..]).collect::<Vec<_>>());
    }
}

/// The same text in chunks of each of [`LENGTHS`], in the same rounds: how much of the speed longer chunks cost.
fn by_length(options: &Options, text: &[u8], common: &[text::Counted], rare: &[text::Counted]) {
    let [short, long] = LENGTHS.map(|length| Store::new(&text.chunks(length).collect::<Vec<_>>()));
    println!(
        "\nby chunk length: the same text in {} chunks of {} and in {} of {}",
        short.chunks.len(),
        LENGTHS[0],
        long.chunks.len(),
        LENGTHS[1]
    );
    println!(
        "a and b as above, MB/s; ratio: the long chunks' speed by the short ones', best and median of the rounds' own ratios"
    );
    println!(
        "{:<22} fold {:>10} {:>10} {:>6} {:>7} {:>10} {:>10} {:>6} {:>7}    loops",
        "keywords", "a short", "a long", "best", "median", "b short", "b long", "best", "median"
    );
    for (name, words) in [("common", common), ("rare", rare)] {
        for (count, fold) in [(1, false), (4, false), (16, false), (16, true)] {
            let keywords: Vec<&[u8]> = words[..count].iter().map(|(word, _)| &word[..]).collect();
            length_row(options, &format!("{count} {name}"), [&short, &long], &keywords, fold);
        }
    }
    let runs = vec![b'a'; WORST];
    let [short, long] = LENGTHS.map(|length| Store::new(&runs.chunks(length).collect::<Vec<_>>()));
    for (name, words) in &worst_lists()[..2] {
        length_row(options, name, [&short, &long], &words.iter().map(|word| &word[..]).collect::<Vec<_>>(), false);
    }
}

/// A row: both stores by both scans in each round.
fn length_row(options: &Options, name: &str, stores: [&Store; 2], keywords: &[&[u8]], fold: bool) {
    let list = vault::keyword_list(fold, keywords).expect("different keywords");
    let mut buffers = stores.map(|store| {
        let mut roomy = vec![0; vault::scan_bound(&list, &store.bytes) as usize];
        assert!(roomy.len() as u64 <= vault::LONGEST_INDEX, "too much text for one walk");
        let written = vault::scan_into(&list, &store.bytes, &mut roomy).expect("a good store");
        [roomy, vec![0; written.length]]
    });
    // By scan (a, b), then store (short, long).
    let mut times = [[vec![], vec![]], [vec![], vec![]]];
    let mut loops = [vec![], vec![]];
    for _ in 0..options.rounds {
        loops[0].push(calibration());
        loops[1].push(latency());
        for (scan, of) in times.iter_mut().enumerate() {
            for (k, store) in stores.iter().enumerate() {
                let out = &mut buffers[k][scan];
                of[k].push(timed(|| vault::scan_into(&list, black_box(&store.bytes), out).expect("a good store")).0);
            }
        }
    }
    let mut line = format!("{name:<22} {:<4}", if fold { "on" } else { "off" });
    for [short, long] in &times {
        let rate = |times: &[f64]| stores[0].data as f64 / 1e6 / best(times);
        let ratios: Vec<f64> = short.iter().zip(long).map(|(short, long)| short / long).collect();
        line +=
            &format!(" {:>10.0} {:>10.0} {:>6.2} {:>7.2}", rate(short), rate(long), best(short) / best(long), median(&ratios));
    }
    println!("{line} {:>6.1} {:>4.1}", 1e3 * best(&loops[0]), 1e3 * best(&loops[1]));
}

/// Two moves a byte and no find; 16 finds a byte; the most nodes.
fn worst_lists() -> [(&'static str, Vec<Vec<u8>>); 3] {
    let ended = (16..32).map(|k| [vec![b'a'; k], vec![b'b']].concat());
    let different = (0..16u8).map(|k| (0..32).map(|at| if at == 0 { b'A' + k } else { b'a' + (k + at) % 26 }).collect());
    [
        ("a^16 b .. a^31 b on a", ended.collect()),
        ("a^17 .. a^32 on a", (17..=32).map(|k| vec![b'a'; k]).collect()),
        ("16 of 32, 513 nodes", different.collect()),
    ]
}

/// A store, its chunks, and recipes in which each chunk is a file.
struct Store<'a> {
    chunks: Vec<&'a [u8]>,
    bytes: Vec<u8>,
    recipes: Vec<u8>,
    /// Bytes of the chunks.
    data: usize,
}

impl<'a> Store<'a> {
    fn new(chunks: &[&'a [u8]]) -> Store<'a> {
        Store {
            chunks: chunks.to_vec(),
            bytes: store_of(chunks),
            recipes: recipes_of(&(0..chunks.len()).map(|k| vec![k]).collect::<Vec<_>>()),
            data: chunks.iter().map(|chunk| chunk.len()).sum(),
        }
    }
}

fn heading(options: &Options, peers: &[Peer]) {
    println!("{} rounds; MB/s of the chunks' bytes, best and median; processor time of the thread", options.rounds);
    println!("a: scan into a buffer as long as the bound (one walk); b: scan into an exact buffer; check: the store check alone");
    let counts = |peer: &Peer| if peer.all { "all finds" } else { "finds that don't overlap" };
    peers.iter().for_each(|peer| println!("{}: counts {} in the same chunks", peer.name, counts(peer)));
    println!(
        "a/ and b/: how many times as fast as the peer; loops: the fixed loops beside the row, throughput and latency, in ms\n"
    );
    let names: String = peers.iter().map(|peer| format!(" {:>7}", peer.name)).collect();
    let ratios: String = peers.iter().map(|peer| format!(" {:>8} {:>8}", over("a", peer), over("b", peer))).collect();
    println!(
        "{:<22} fold finds/KB moves/byte         {:>7} {:>7} {:>8}{names}{ratios}      loops",
        "keywords", "a", "b", "check"
    );
}

fn over(scan: &str, peer: &Peer) -> String {
    format!("{scan}/{}", peer.name)
}

/// One row: every method in each round.
fn row(options: &Options, peers: &[Peer], name: &str, store: &Store, keywords: &[&[u8]], fold: bool) {
    let list = vault::keyword_list(fold, keywords).expect("different keywords");
    // Pages of it that the index doesn't reach are never touched.
    let mut roomy = vec![0; vault::scan_bound(&list, &store.bytes) as usize];
    assert!(roomy.len() as u64 <= vault::LONGEST_INDEX, "too much text for one walk");
    let written = vault::scan_into(&list, &store.bytes, &mut roomy).expect("a good store");
    let mut exact = vec![0; written.length];
    assert_eq!(vault::scan_into(&list, &store.bytes, &mut exact), Ok(written), "the two scans differ");
    assert!(exact == roomy[..written.length], "the two indexes differ");
    let finds = vault::count(&exact, &store.recipes).expect("good recipes");
    let counters: Vec<Counter> = peers.iter().map(|peer| (peer.make)(keywords, fold)).collect();
    let count = |counter: &Counter| store.chunks.iter().map(|chunk| counter(black_box(chunk))).sum::<u64>();
    for (peer, counter) in peers.iter().zip(&counters) {
        let counted = count(counter);
        assert!(counted == finds || !peer.all && counted <= finds, "{} counts {counted} finds, the scan {finds}", peer.name);
    }
    let mut times: Vec<Vec<f64>> = vec![vec![]; 5 + peers.len()];
    for _ in 0..options.rounds {
        times[0].push(calibration());
        times[1].push(latency());
        times[2].push(timed(|| vault::scan_into(&list, black_box(&store.bytes), &mut roomy).expect("a good store")).0);
        times[3].push(timed(|| vault::scan_into(&list, black_box(&store.bytes), &mut exact).expect("a good store")).0);
        times[4].push(timed(|| vault::check_store(black_box(&store.bytes)).expect("a good store")).0);
        for (k, counter) in counters.iter().enumerate() {
            times[5 + k].push(timed(|| black_box(count(counter))).0);
        }
    }
    let (per_kb, per_byte) = (1024.0 * finds as f64 / store.data as f64, written.moves as f64 / store.data as f64);
    let front = format!("{name:<22} {:<4} {per_kb:>8.2} {per_byte:>10.3}", if fold { "on" } else { "off" });
    tell(&front, "best", store.data, &times.iter().map(|t| best(t)).collect::<Vec<_>>());
    tell(&" ".repeat(front.len()), "median", store.data, &times.iter().map(|t| median(t)).collect::<Vec<_>>());
}

/// A line of a row: rates, ratios, loops.
fn tell(front: &str, what: &str, bytes: usize, times: &[f64]) {
    let rate = |time: f64| bytes as f64 / 1e6 / time;
    let rates: String = times[5..].iter().map(|time| format!(" {:>7.0}", rate(*time))).collect();
    let ratios: String = times[5..].iter().map(|time| format!(" {:>8.2} {:>8.2}", time / times[2], time / times[3])).collect();
    println!(
        "{front} {what:<7} {:>7.0} {:>7.0} {:>8.0}{rates}{ratios} {:>6.1} {:>4.1}",
        rate(times[2]),
        rate(times[3]),
        rate(times[4]),
        1e3 * times[0],
        1e3 * times[1]
    );
}

/// How long a scan takes that has no chunk to walk.
fn build(options: &Options, name: &str, keywords: &[&[u8]]) {
    let list = vault::keyword_list(false, keywords).expect("different keywords");
    let store = store_of::<&[u8]>(&[]);
    let mut out = vec![0; vault::scan_bound(&list, &store) as usize];
    let (mut times, mut loops) = (Vec::new(), Vec::new());
    for _ in 0..options.rounds {
        loops.push(calibration());
        let scans = || {
            (0..BUILDS).for_each(|_| {
                black_box(vault::scan_into(black_box(&list), &store, &mut out).expect("a good store"));
            })
        };
        times.push(1e6 * timed(scans).0 / BUILDS as f64);
    }
    println!("  {name:<22} best {:>7.1}, median {:>7.1} (loop {:.1} ms)", best(&times), median(&times), 1e3 * median(&loops));
}
