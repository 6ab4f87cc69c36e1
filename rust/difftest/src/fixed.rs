//! Cases that are not random: the paper's, the corners of each format, and the large ones.

use crate::inputs::{list, Case};
use crate::rng::Rng;
use crate::{across, beyond, clients, compaction, folds, holes, lanes, queries, windows};
use oracle::form::{Form, KNOWN, NEWEST};
use oracle::records::Record;
use oracle::{index, recipes, store, Fingerprint};

/// The longest chunk of a store.
const LONGEST: usize = NEWEST.longest_chunk as usize;

pub type Chunks = Vec<(Fingerprint, Vec<u8>)>;

pub fn case(kind: &'static str, list: Vec<u8>, chunks: &Chunks, files: &[Vec<Fingerprint>]) -> Case {
    let mut keys: Vec<Vec<u8>> = chunks.iter().take(2).chain(chunks.last()).map(|(key, _)| key.to_vec()).collect();
    keys.extend([vec![0x77; 20], vec![], vec![1; 19], vec![1; 21]]);
    let (store, recipes) = (store::encode(chunks), recipes::encode(files));
    Case { kind, list, store, index: None, recipes, keys, queries: vec![], lents: vec![] }
}

pub fn key(k: usize) -> Fingerprint {
    let mut key = [0; 20];
    key[..8].copy_from_slice(&(k as u64 + 1).to_le_bytes());
    key
}

pub fn small_chunks() -> Chunks {
    vec![([1; 20], b"XAB".to_vec()), ([2; 20], b"ABAX".to_vec()), ([3; 20], b"A".to_vec())]
}

/// The paper's cases, and those of its readers.
fn papers() -> Vec<Case> {
    let (a, b, c) = ([1; 20], [2; 20], [3; 20]);
    let words: &[&[u8]] = &[b"ABA", b"AA"];
    let kind = "the paper's cases";
    vec![
        case(kind, list(false, words), &small_chunks(), &[vec![a, b], vec![c, c], vec![]]),
        case(kind, list(false, words), &small_chunks(), &[vec![a, c]]),
        case(kind, list(false, words), &small_chunks(), &[vec![a, c, b]]),
        case(kind, list(false, words), &small_chunks(), &[vec![c], vec![], vec![c]]),
        case(kind, list(false, words), &small_chunks(), &[]),
        case(kind, list(false, words), &vec![], &[vec![], vec![]]),
        case(kind, list(false, words), &vec![], &[vec![a]]),
        case(
            kind,
            list(false, &[b"DEDUP", b"UP"]),
            &vec![(a, b"xDED".to_vec()), (b, b"UPDE".to_vec()), (c, b"DUPDEDUP".to_vec())],
            &[vec![a, b, c], vec![c, c, b, c], vec![b, c, a]],
        ),
        case(
            kind,
            list(false, &[b"AAAA"]),
            &vec![(a, b"AAA".to_vec()), (b, b"AAAAA".to_vec())],
            &[vec![a, a, a], vec![b, a, b], vec![a, b]],
        ),
        case(kind, list(false, &[b"AA"]), &vec![(a, b"AAA".to_vec())], &[vec![a]]),
        case(kind, list(false, &[b"ABABA"]), &vec![(a, b"xABA".to_vec()), (b, b"BABAx".to_vec())], &[vec![a, b]]),
        case(kind, list(true, &[b"b", b"{", b"@"]), &vec![(a, b"Bb[{`@".to_vec())], &[vec![a, a]]),
        case(kind, list(true, &[b"Ab", b"aB"]), &small_chunks(), &[]),
        case(kind, list(false, &[b"Ab", b"aB"]), &vec![(a, b"aBAb".to_vec())], &[vec![a, a]]),
        // Tied starts, in both numberings, with one of them crossing.
        case(kind, list(false, &[b"ABA", b"AB"]), &vec![(a, b"xxAB".to_vec()), (b, b"Axx".to_vec())], &[vec![a, b]]),
        case(kind, list(false, &[b"AB", b"ABA"]), &vec![(a, b"xxAB".to_vec()), (b, b"Axx".to_vec())], &[vec![a, b]]),
    ]
}

/// The front of each input, up to 9 bytes.
fn short_inputs() -> Vec<Case> {
    let mut cases = Vec::new();
    for length in 0..10 {
        for start in [vec![], vec![1, 0, 1, 0x41]] {
            let mut short = case("short inputs", start, &small_chunks(), &[vec![[1; 20]]]);
            short.store.truncate(length);
            short.recipes.truncate(length);
            let mut index = index::encode::<&[u8]>(&NEWEST, &list(false, &[b"ABA", b"AA"]), &[]);
            index.truncate(length);
            short.index = Some(index);
            cases.push(short);
        }
    }
    cases
}

/// The cases that are small: valgrind can run them.
pub fn small() -> Vec<Case> {
    let mut cases = papers();
    cases.extend(short_inputs());
    cases.extend(stores());
    cases.extend(moves());
    cases.extend([255, 256, 259].map(|length| around_borders(&sixteen()[..1], length, b'.')));
    cases.extend(keyword_lists());
    cases.extend(folds::by_hand());
    cases.extend(KNOWN.iter().flat_map(indexes));
    cases.extend(KNOWN.iter().flat_map(twin_indexes));
    cases.extend(windows::long_entries());
    cases.extend(beyond::by_hand());
    cases.extend(beyond::few_by_hand());
    cases.extend(holes::by_hand());
    cases.extend(all_recipes());
    cases.extend(compaction::by_hand());
    cases.extend(across::by_hand());
    cases.extend(queries::by_hand());
    cases.extend(clients::by_hand());
    cases
}

/// Stores with two faults, of which the first in the order of the tests is told: twins (8) with every other one, and those with each other.
fn stores() -> Vec<Case> {
    let of = |spoil: &dyn Fn(&mut Vec<u8>)| {
        let twins = vec![([1; 20], b"XAB".to_vec()), ([2; 20], b"ABAX".to_vec()), ([1; 20], b"A".to_vec())];
        let mut bad = case("stores with two faults", list(false, &[b"ABA", b"AA"]), &twins, &[vec![[1; 20]]]);
        spoil(&mut bad.store);
        bad
    };
    vec![
        of(&|_| ()),
        of(&|store| store.push(0)),
        of(&|store| store.truncate(99)),
        of(&|store| store.truncate(91)),
        of(&|store| store[0] = 0),
        of(&|store| store[4] = 4),
        of(&|store| store[6] = 1),
        of(&|store| store[8 + 24] = 0),
        of(&|store| store[8 + 56 + 20] += 1),
        of(&|store| store[8 + 56 + 24] += 1),
        of(&|store| store[8 + 56 + 26] = 1),
        of(&|store| {
            store[4] = 4;
            store[0] = 0;
        }),
        of(&|store| {
            store[6] = 1;
            store[8 + 24] = 0;
        }),
    ]
}

/// Indexes with two faults, of which the first in the order of the tests is told: twins (12) with every other one, and a body that isn't
/// good (13) with those before it.
fn twin_indexes(form: &Form) -> Vec<Case> {
    let words = list(false, &[b"ABA", b"AA"]);
    let of = |body: &[u8], spoil: &dyn Fn(&mut Vec<u8>)| {
        let mut bad = case("indexes with two faults", words.clone(), &small_chunks(), &[vec![[1; 20]]]);
        let mut bytes = index::encode(form, &words, &[([1; 20], 3, &b""[..]), ([2; 20], 4, body), ([1; 20], 1, b"")]);
        spoil(&mut bytes);
        bad.index = Some(bytes);
        bad
    };
    let (good, wrong): (&[u8], &[u8]) = (b"", b"\xFF");
    let mut cases = vec![of(good, &|_| ()), of(wrong, &|_| ())];
    for body in [good, wrong] {
        cases.push(of(body, &|index| index.push(0)));
        cases.push(of(body, &|index| index.truncate(index.len() - 1)));
        cases.push(of(body, &|index| index[0] = 0));
        cases.push(of(body, &|index| index[6] = 1));
        cases.push(of(body, &|index| index[8] = 0));
        cases.push(of(body, &|index| index[8 + 9 + 20] = 0));
        cases.push(of(body, &|index| index[8 + 9 + 64 + 24] += 1));
    }
    cases
}

/// Chunks whose moves are in the readings of request 103, and those of its sentences: links behind a whole keyword, to a beginning of
/// another keyword, one trie for all, the fold, the root anew in each chunk.
fn moves() -> Vec<Case> {
    let of = |fold: bool, words: &[&[u8]], chunks: &[&[u8]]| {
        let chunks: Chunks = chunks.iter().enumerate().map(|(k, chunk)| (key(k), chunk.to_vec())).collect();
        case("moves by hand", list(fold, words), &chunks, &[chunks.iter().map(|(key, _)| *key).collect()])
    };
    vec![
        of(false, &[b"DEDUP", b"UP"], &[b"DEDE", b"DEDUP", b"DEDUPX", b"DEDUPDEDUP", b"DEDUUP"]),
        of(false, &[b"AAAA"], &[b"AAAAAA", b"AAAX", b"AAA", b"AAA"]),
        of(false, &[b"A"], &[b"AAAA", b"BBBB", b"ABAB"]),
        of(false, &[b"A"], &[]),
        of(false, &[b"ABCD", b"BC", b"C"], &[b"ABCABCABCD", b"ABCE", b"BCBCC"]),
        of(false, &[b"ABABABAC", b"BABD"], &[b"ABABABABABABAC", b"ABABABD"]),
        of(true, &[b"dedup", b"Up"], &[b"DeDe", b"dEDUPx", b"DEDuP"]),
        of(false, &[b"dedup", b"Up"], &[b"DeDe", b"dEDUPx", b"DEDuP"]),
        of(true, &[b"[[", b"@@", b"\xC9\xC9"], &[b"[{[[", b"@`@@", b"\xC9\xE9\xC9\xC9"]),
    ]
}

/// a^16 b to a^31 b.
fn sixteen() -> Vec<Vec<u8>> {
    (16..32).rev().map(|k| [vec![b'a'; k], vec![b'b']].concat()).collect()
}

/// A chunk for each distance: the first keyword ends so many bytes behind each quarter's first byte, in filler of that byte.
fn around_borders(words: &[Vec<u8>], length: usize, filler: u8) -> Case {
    let distances = 0..=words[0].len() + 1;
    let chunks: Chunks = distances
        .map(|distance| {
            let mut data = vec![filler; length];
            (1..=4).for_each(|lane| lanes::put(&mut data, &words[0], lane * (length / 4) + distance));
            (key(distance), data)
        })
        .collect();
    let words = list(false, &words.iter().map(|w| &w[..]).collect::<Vec<_>>());
    case("keywords around the quarters", words, &chunks, &[chunks.iter().map(|(key, _)| *key).collect()])
}

/// Keyword lists with faults, singly and in pairs.
fn keyword_lists() -> Vec<Case> {
    let lists: &[&[u8]] = &[
        &[0xFF],
        &[0],
        &[0, 0],
        &[0x11, 2],
        &[1, 0],
        &[1, 2, 0],
        &[1, 0, 0],
        &[1, 0, 0x21, 0x41],
        &[2, 0, 3, 0x41, 0],
        &[2, 0, 1, 0x41, 0],
        &[2, 0, 1, 0x41, 1, 0x41],
        &[2, 0, 1, 0x41, 1, 0x41, 0],
        &[2, 1, 1, 0x41, 1, 0x61],
        &[2, 0, 1, 0x41, 1, 0x61],
        &[2, 1, 1, 0x40, 1, 0x60],
        &[2, 1, 1, 0x5B, 1, 0x7B],
        &[2, 1, 1, 0x5A, 1, 0x7A],
        &[2, 1, 1, 0xC9, 1, 0xE9],
        &[2, 1, 1, 0xC9, 1, 0xE9, 0],
        &[2, 1, 1, 0xC3, 1, 0xE3],
        &[2, 1, 2, 0xC3, 0x89, 2, 0xC3, 0xA9],
    ];
    let mut cases: Vec<Case> =
        lists.iter().map(|l| case("keyword lists", l.to_vec(), &small_chunks(), &[vec![[1; 20]]])).collect();
    // The same lists inside an index, and the largest list.
    for l in lists {
        let mut inside = case("keyword lists", list(false, &[b"A"]), &small_chunks(), &[]);
        inside.index = Some(index::encode::<&[u8]>(&NEWEST, l, &[]));
        cases.push(inside);
    }
    let words: Vec<Vec<u8>> = (0..16).map(|k| vec![0x41 + k; 32]).collect();
    let mut largest =
        case("keyword lists", list(true, &words.iter().map(|w| &w[..]).collect::<Vec<_>>()), &small_chunks(), &[vec![[1; 20]]]);
    cases.push(largest.clone());
    largest.list[530 - 32..].fill(0x61);
    cases.push(largest);
    cases
}

/// A body of that form: bytes in decimal, with `#` a field of the form's width; a `<` at the end takes the last byte away.
pub fn written(form: &Form, text: &str) -> Vec<u8> {
    let mut body = Vec::new();
    for word in text.split_whitespace() {
        match word.strip_prefix('#') {
            Some(number) => body.extend(form.field(number.parse().expect("a number"))),
            None if word == "<" => drop(body.pop()),
            None => body.push(word.parse().expect("a byte")),
        }
    }
    body
}

/// For the keywords ABA, Q and AA.
const BODIES: [&str; 45] = [
    "",
    "0",
    "0 0",
    "0 0 0",
    "0 0 1",
    "0 0 2",
    "0 0 3",
    "0 0 4",
    "0 0 5",
    "1 0 1",
    "3 0 1",
    "0 4 1",
    "0 1 0 0 0 #0",
    "0 1 1 0 0 #0",
    "0 1 1 1 0 #0",
    "0 1 2 0 0 #0",
    "0 1 0 2 0 #0",
    "0 1 2 0 0 #1",
    "0 1 2 0 0 #256",
    "0 1 2 0 2 #1",
    "0 1 3 0 0 #0",
    "0 1 0 3 0 #0",
    "0 1 0 0 1 #7",
    "0 1 0 0 1 #8",
    "0 1 0 0 1 #256",
    "1 1 0 0 1 #9",
    "1 1 0 0 1 #10",
    "1 1 1 0 1 #9",
    "0 2 2 0 0 #0",
    "0 2 0 0 1 #1 #1",
    "0 2 0 0 2 #1 #1 #2",
    "0 2 0 0 2 #0 #1 #2",
    "0 2 0 0 2 #1 #1 #1",
    "0 2 0 0 2 #2 #2 #1",
    "0 2 0 0 2 #1 #1 #2 <",
    "0 2 0 0 3 #1 #1 #2",
    "0 2 0 0 255 #1 #1 #2",
    "0 3 0 0 255 #1 #2 #1 #2",
    "0 3 0 0 255 #1",
    "0 3 0 0 255 #1 #255 <",
    "0 0 1 0 0 1",
    "2 0 1 0 0 1",
    "0 0 1 9",
    "0 0 1 2 0 2",
    "0 0 3 1 1 0 0 1 #0 2 0 3",
];

/// Bodies that are almost good, and directories whose sums pass 32 bits, in a form.
fn indexes(form: &Form) -> Vec<Case> {
    let words: &[&[u8]] = &[b"ABA", b"Q", b"AA"];
    let mut cases = Vec::new();
    for (k, body) in BODIES.map(|text| written(form, text)).iter().enumerate() {
        // First, last, and for a chunk too short for the keyword.
        for (first, second, size) in [(&body[..], &b""[..], 10), (b"\0\0\x01", body, 10), (body, b"", 2), (body, b"", 1)] {
            let mut bad = case(
                "bodies by hand",
                list(false, words),
                &small_chunks(),
                &[vec![[1; 20], [2; 20], [1; 20]], vec![[k as u8; 20]]],
            );
            bad.index = Some(index::encode(form, &list(false, words), &[([1; 20], size, first), ([2; 20], 10, second)]));
            if k % 3 != 0 {
                bad.recipes = recipes::encode(&[vec![[1; 20], [2; 20]], vec![], vec![[2; 20], [2; 20]]]);
            }
            cases.push(bad);
        }
    }
    // 255 offsets that are one form and not the other.
    let all: Vec<usize> = (0..255).collect();
    let exact = 5 + form.width;
    let offsets = exact + form.width;
    let last = form.width - 1;
    for (at, byte) in [
        (0, 0),
        (1, 2),
        (4, 254),
        (exact, 254),
        (exact + 1, 1),
        (exact + last, 1),
        (offsets, 1),
        (offsets + last, 1),
        (offsets + form.width, 0),
        (offsets + form.width + last, 1),
    ] {
        let mut body = Record { offsets: all.clone(), ..Record::default() }.encode(form, 0);
        body[at] = byte;
        let mut bad = case("bodies by hand", list(false, &[b"A"]), &small_chunks(), &[vec![[1; 20]]]);
        bad.index = Some(index::encode(form, &list(false, &[b"A"]), &[([1; 20], 255, body)]));
        cases.push(bad);
    }
    // The wrong kind for a count, else as it should be: 254 and 255 offsets as kind 2 and as kind 3.
    for (count, kind, byte) in
        [(254, 2, 254), (254, 3, 254), (254, 3, 255), (255, 2, 255), (255, 3, 255), (256, 2, 0), (256, 3, 0)]
    {
        let mut body = vec![0, kind, 0, 0, byte];
        body.extend(form.field(0));
        if kind == 3 {
            body.extend(form.field(count));
        }
        (0..count).for_each(|at| body.extend(form.field(at)));
        let mut bad = case("bodies by hand", list(false, &[b"A"]), &small_chunks(), &[vec![[1; 20]]]);
        bad.index = Some(index::encode(form, &list(false, &[b"A"]), &[([1; 20], 256, body)]));
        cases.push(bad);
    }
    // Sums that wrap in 32 bits, in the index and in the store.
    for length in [u32::MAX, u32::MAX - 1, 0x8000_0000] {
        let mut wraps = case("sums past 32 bits", list(false, &[b"A"]), &small_chunks(), &[]);
        let mut bytes = index::encode(form, &list(false, &[b"A"]), &[([1; 20], 1, &b""[..]), ([2; 20], 1, b"")]);
        let end = bytes.len() as u32;
        bytes[12 + 28..12 + 32].copy_from_slice(&length.to_le_bytes());
        bytes[12 + 56..12 + 60].copy_from_slice(&end.wrapping_add(length).to_le_bytes());
        bytes[12 + 60..12 + 64].copy_from_slice(&0u32.wrapping_sub(length).to_le_bytes());
        wraps.index = Some(bytes);
        let mut bytes = store::encode(&small_chunks());
        bytes[8 + 24..8 + 28].copy_from_slice(&length.to_le_bytes());
        bytes[8 + 28 + 20..8 + 28 + 24].copy_from_slice(&92u32.wrapping_add(length).to_le_bytes());
        wraps.store = bytes;
        cases.push(wraps);
    }
    cases
}

/// Recipes with faults in their counts, and each file's tests in order.
fn all_recipes() -> Vec<Case> {
    let (long, one, two, unknown) = ([1; 20], [2; 20], [3; 20], [9; 20]);
    let chunks: Chunks = vec![(long, b"ABABABA".to_vec()), (one, b"A".to_vec()), (two, b"BA".to_vec())];
    let words = list(false, &[b"ABA"]);
    let files: Vec<Vec<Vec<Fingerprint>>> = vec![
        vec![vec![one, one], vec![one], vec![]],
        vec![vec![one, two, one]],
        vec![vec![long, one, long]],
        vec![vec![one, one, one]],
        vec![vec![one, one, unknown]],
        vec![vec![unknown, one, one]],
        vec![vec![one, one, one], vec![unknown]],
        vec![vec![unknown], vec![one, one, one]],
        vec![vec![long; 5], vec![], vec![unknown]],
        vec![vec![long, two, one]],
        vec![vec![one, long, two, two, one]],
    ];
    let mut cases: Vec<Case> = files.iter().map(|files| case("recipes", words.clone(), &chunks, files)).collect();
    for (at, number) in [
        (0, 65_536u32),
        (0, u32::MAX),
        (0, 2),
        (0, 0),
        (4, 0x4000_0000),
        (4, 0x4000_0001),
        (4, 0x0CCC_CCCD),
        (4, u32::MAX),
        (4, 1),
        (4, 3),
    ] {
        let mut bad = case("recipes", words.clone(), &chunks, &[vec![long, unknown]]);
        bad.recipes[at..at + 4].copy_from_slice(&number.to_le_bytes());
        cases.push(bad);
    }
    // An unknown fingerprint and a byte too many: 14 comes first.
    let mut both = case("recipes", words, &chunks, &[vec![unknown]]);
    both.recipes.push(0);
    cases.push(both);
    cases
}

/// The large cases, each made when it is run.
pub fn large() -> Vec<(&'static str, fn(&mut Rng) -> Vec<Case>)> {
    vec![
        ("253 to 257 occurrences", counts),
        ("an occurrence at each byte of the longest chunk", longest_chunk),
        ("65,535 files", many_files),
        ("the longest file", longest_file),
        ("9 x count past 32 bits", past_32_bits),
        ("65,000 chunks", many_chunks),
        ("one hash chain", one_chain),
        ("megabytes", megabytes),
        ("keywords around the quarters", quarters),
        ("moves of the longest chunks", longest_walks),
        ("every two bytes", folds::every_byte),
        ("chunks of several windows", windows::large),
        ("the most occurrences", windows::most),
        ("long holes", holes::large),
        ("compaction", compaction::large),
        ("keywords over many chunks", across::large),
        ("queries", queries::large),
    ]
}

fn quarters(_: &mut Rng) -> Vec<Case> {
    let (fibonacci, two) = (b"abaababaabaababaababaabaababaaba".to_vec(), b"ab".to_vec());
    let periodic = b"abababababababababababababababab".to_vec();
    let endings = [periodic.clone(), b"babab".to_vec(), b"abab".to_vec(), b"b".to_vec(), two.clone()];
    let lists = [sixteen(), vec![vec![b'a'; 32], vec![b'a'; 31]], vec![fibonacci, two.clone()], endings.to_vec(), vec![two]];
    let mut cases = Vec::new();
    for words in &lists {
        for length in [255, 256, 257, 258, 259, 260, 1023, 1024, 1025, 1026, 1027] {
            cases.extend([b'.', b'a', b'b'].map(|filler| around_borders(words, length, filler)));
        }
    }
    cases
}

/// The four longest chunks, and with 16 keywords those around 65,536 bytes: runs of a letter and of a keyword, with two moves a byte, and
/// with a last byte that ends them.
fn longest_walks(_: &mut Rng) -> Vec<Case> {
    let all: Vec<Vec<u8>> = (17..=32).map(|k| vec![b'a'; k]).collect();
    let lists = [sixteen(), vec![b"ab".to_vec()], vec![b"aab".to_vec(), b"abaab".to_vec()], all];
    let mut cases = Vec::new();
    for words in &lists {
        let longest = if words.len() < 16 { LONGEST } else { windows::WINDOW + 1 };
        let run = |length: usize, last: u8| {
            let mut data = vec![b'a'; length];
            data[length - 1] = last;
            data
        };
        let repeated: Vec<u8> = words[0].iter().copied().cycle().take(longest).collect();
        let mut chunks: Chunks = (longest - 3..=longest).map(|length| (key(length), run(length, b'a'))).collect();
        chunks.extend([(key(1), run(longest, b'b')), (key(2), run(longest - 1, b'.')), (key(3), repeated)]);
        let words = list(false, &words.iter().map(|w| &w[..]).collect::<Vec<_>>());
        cases.push(case("moves of the longest chunks", words, &chunks, &[vec![key(1), key(3)]]));
    }
    cases
}

fn counts(_: &mut Rng) -> Vec<Case> {
    let mut cases = Vec::new();
    for count in 253..=257 {
        let words: &[&[u8]] = &[b"A", b"AA", b"AAA", b"BA"];
        for n in 1..=3 {
            let mut apart = Vec::new();
            (0..count).for_each(|_| apart.extend_from_slice(b"xBA"));
            let chunks = vec![([1; 20], vec![b'A'; count + n - 1]), ([2; 20], apart)];
            cases.push(case("253 to 257 occurrences", list(false, words), &chunks, &[vec![[1; 20], [2; 20], [1; 20], [1; 20]]]));
        }
    }
    cases
}

fn longest_chunk(_: &mut Rng) -> Vec<Case> {
    let kind = "an occurrence at each byte of the longest chunk";
    let full = vec![([1; 20], vec![b'A'; LONGEST]), ([2; 20], b"aaa".to_vec())];
    let twice = [vec![[1; 20], [1; 20]], vec![[2; 20], [1; 20], [2; 20]]];
    let words: Vec<Vec<u8>> = (1..=16).map(|n| vec![b'A'; n]).collect();
    // 16 keywords, and lists of 9 bytes for each: over two windows and a byte.
    let shorter = vec![([1; 20], vec![b'A'; 2 * windows::WINDOW + 1])];
    vec![
        case(kind, list(false, &[b"A"]), &full, &twice),
        case(kind, list(true, &[b"AA", b"A"]), &full, &twice),
        case(kind, list(false, &[&[b'A'; 32]]), &full, &[vec![[1; 20], [1; 20], [1; 20]]]),
        case(kind, list(false, &words.iter().map(|w| &w[..]).collect::<Vec<_>>()), &shorter, &[vec![[1; 20], [1; 20]]]),
    ]
}

fn many_files(_: &mut Rng) -> Vec<Case> {
    let mut cases = Vec::new();
    for count in [65_535, 65_536] {
        let mut files = vec![vec![]; count];
        files[65_534] = vec![[3; 20], [3; 20]];
        cases.push(case("65,535 files", list(false, &[b"AA"]), &small_chunks(), &files));
    }
    cases
}

/// 65,537 times 65,535 bytes are the most; one byte more is refused. From a store, and from made-up records of each mark. 4,096 of the
/// longest chunks are one byte too many.
fn longest_file(_: &mut Rng) -> Vec<Case> {
    let kind = "the longest file";
    let mut data = vec![b'x'; 65_535];
    data[0] = b'B';
    data[65_534] = b'A';
    let chunks = vec![([1; 20], data), ([2; 20], b"A".to_vec())];
    let exact = vec![[1; 20]; 65_537];
    let mut above = exact.clone();
    above.push([2; 20]);
    let mut short_inside = above.clone();
    short_inside.push([1; 20]);
    short_inside[5] = [2; 20];
    short_inside[6] = [2; 20];
    let words = list(false, &[b"ABx", b"xAB"]);
    let mut cases = vec![
        case(kind, words.clone(), &chunks, &[exact.clone()]),
        case(kind, words.clone(), &chunks, &[vec![], above.clone()]),
        case(kind, words.clone(), &chunks, &[short_inside]),
        case(kind, words.clone(), &chunks, &[vec![[1; 20], [2; 20], [1; 20]], above.clone()]),
    ];
    for (form, file) in KNOWN.iter().flat_map(|form| [(form, &exact), (form, &above)]) {
        let mut made_up = case(kind, words.clone(), &chunks, &[file.clone()]);
        let record = Record { offsets: vec![65_532], ..Record::default() };
        made_up.index = Some(index::encode(form, &words, &[([1; 20], 65_535, record.encode(form, 1)), ([2; 20], 1, vec![])]));
        cases.push(made_up);
    }
    let mut data = vec![b'x'; LONGEST];
    data[0] = b'B';
    data[LONGEST - 1] = b'A';
    let shorter = data[..LONGEST - 1].to_vec();
    let chunks = vec![([1; 20], data), ([2; 20], shorter)];
    let mut exact = vec![[1; 20]; 4_096];
    exact[4_095] = [2; 20];
    cases.push(case(kind, words.clone(), &chunks, &[exact]));
    cases.push(case(kind, words.clone(), &chunks, &[vec![[1; 20]; 4_095], vec![[1; 20]; 4_096]]));
    cases
}

fn past_32_bits(_: &mut Rng) -> Vec<Case> {
    let chunks = vec![([1; 20], vec![b'A'; 65_535])];
    let files = [vec![[1; 20]; 7_000], vec![[1; 20]; 283]];
    vec![case("9 x count past 32 bits", list(false, &[b"A"]), &chunks, &files)]
}

fn many_chunks(rng: &mut Rng) -> Vec<Case> {
    let kind = "65,000 chunks";
    let mut cases = Vec::new();
    let words = list(false, &[b"AB", b"B", b"AAA"]);
    for how in 0..3 {
        let chunks: Chunks = (0..65_000)
            .map(|k| {
                let mut key = key(k);
                match how {
                    0 => (),
                    1 => key.reverse(),
                    _ => key[8..].copy_from_slice(&rng.bytes(12)),
                }
                (key, (0..rng.range(1, 5)).map(|_| *rng.pick(b"ABx")).collect())
            })
            .collect();
        let files: Vec<Vec<Fingerprint>> = (0..300).map(|_| (0..2).map(|_| rng.pick(&chunks).0).collect()).collect();
        let good = case(kind, words.clone(), &chunks, &files);
        let mut all = good.clone();
        let every: Vec<Fingerprint> = chunks.iter().filter(|(_, c)| c.len() >= 2).map(|(key, _)| *key).collect();
        all.recipes = recipes::encode(&[every, vec![chunks[64_999].0, chunks[0].0]]);
        cases.push(all);
        // The first fingerprint again at the end; near twins; the count one higher.
        let mut twin = good.clone();
        twin.store.copy_within(8..28, 8 + 28 * 64_999);
        cases.push(twin);
        let mut near = good.clone();
        near.store.copy_within(8..28, 8 + 28 * 64_999);
        near.store[8 + 28 * 64_999 + if how == 0 { 0 } else { 19 }] ^= 0x80;
        cases.push(near);
        let mut more = good.clone();
        more.store[4..8].copy_from_slice(&65_001u32.to_le_bytes());
        cases.push(more);
        // The same in an index: a twin, and the last body bad.
        let index = oracle::calls::index_of(&good.list, &good.store).unwrap();
        let start = 8 + words.len();
        let mut twin = good.clone();
        let mut bytes = index.clone();
        bytes.copy_within(start..start + 20, start + 32 * 64_999);
        twin.index = Some(bytes);
        cases.push(twin);
        let mut last = good.clone();
        let mut bytes = index;
        let end = bytes.len();
        bytes[end - 1] ^= 0x40;
        last.index = Some(bytes);
        cases.push(last);
    }
    cases
}

/// Fingerprints that the library's directory hashes alike (a weighted sum of five fields modulo 65,521).
fn one_chain(rng: &mut Rng) -> Vec<Case> {
    let mut cases = Vec::new();
    for field in [0, 4, 8, 12, 16] {
        let base = rng.below(60_000) as u32;
        let chunks: Chunks = (0..3_000u32)
            .map(|k| {
                let mut key = [0x55; 20];
                key[field..field + 4].copy_from_slice(&(base + 65_521 * k).to_le_bytes());
                (key, (0..rng.range(1, 5)).map(|_| *rng.pick(b"ABx")).collect())
            })
            .collect();
        let files: Vec<Vec<Fingerprint>> = (0..100).map(|_| (0..2).map(|_| rng.pick(&chunks).0).collect()).collect();
        let good = case("one hash chain", list(false, &[b"AB", b"A"]), &chunks, &files);
        cases.push(good.clone());
        let mut twin = good;
        let (from, to) = (8 + 28 * rng.below(1_500), 8 + 28 * rng.range(1_500, 2_999));
        twin.store.copy_within(from..from + 20, to);
        cases.push(twin);
    }
    cases
}

fn megabytes(rng: &mut Rng) -> Vec<Case> {
    let kind = "megabytes";
    let mut cases = Vec::new();
    let text = b"the invoice of the other client was paid in cash, and the Invoice was filed; ";
    let words: &[&[u8]] = &[
        b"invoice",
        b"in",
        b"the",
        b"client",
        b"cash, and",
        b"paid",
        b"q",
        b"tht",
        b"e",
        b"then",
        b"hello",
        b"ice of",
        b"; t",
        b"filed",
        b"was",
        b"zzzzzzzzzzzzzzzzzzzzzzzzzzzzzzzz",
    ];
    for (count, low, high) in
        [(1, 4_000, 12_000), (4, 4_000, 12_000), (16, 30_000, 65_535), (16, 31, 900), (4, 200_000, 1_048_576)]
    {
        let mut chunks: Chunks = Vec::new();
        let mut total = 0;
        while total < 4 << 20 {
            let length = rng.range(low, high);
            let start = rng.below(text.len());
            let mut data: Vec<u8> = text.iter().copied().cycle().skip(start).take(length).collect();
            (0..length / 50).for_each(|_| {
                let at = rng.below(length);
                data[at] = rng.byte();
            });
            total += length;
            chunks.push((key(chunks.len()), data));
        }
        let files: Vec<Vec<Fingerprint>> =
            (0..40).map(|_| (0..rng.range(0, 30)).map(|_| rng.pick(&chunks).0).collect()).collect();
        let mut large = case(kind, list(count == 4, &words[..count]), &chunks, &files);
        cases.push(large.clone());
        // One byte of the last chunk missing.
        large.store.pop();
        cases.push(large);
    }
    cases
}
