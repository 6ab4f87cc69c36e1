//! The program as an operator runs it: outputs, exit status and messages.

mod common;

use common::{recipes, store, Folder};
use std::fs;

#[test]
fn the_small_vault_in_every_format() {
    let folder = Folder::new("formats");
    let search = "search store.bin recipes.bin --words words.bin";
    folder.prints(&format!("{search} --format plain"), "finds 3\n0 1 0\n0 3 0\n1 0 1\n");
    folder.prints(
        search,
        "file 0\n           1  ABA\n           3  ABA\nfile 1\n           0  AA\n3 occurrences in 2 of 3 files\n",
    );
    folder.prints(&format!("{search} --count"), "3\n");
    folder.write("names.txt", b"a.txt\nb c.txt\nempty\n");
    let rows = "file\toffset\tkeyword\ttext\tname\n0\t1\t0\tABA\ta.txt\n0\t3\t0\tABA\ta.txt\n1\t0\t1\tAA\tb c.txt\n";
    folder.prints(&format!("{search} --format tsv --names names.txt"), rows);
    let (_, lines, _) = folder.run(&format!("{search} --format jsonl --names names.txt"));
    assert_eq!(lines.lines().last(), Some("{\"file\":1,\"offset\":0,\"keyword\":1,\"text\":\"AA\",\"name\":\"b c.txt\"}"));
    folder.prints(&format!("{search} --format raw -o list.bin"), "");
    assert_eq!(folder.read("list.bin")[..9], [0, 0, 0, 0, 1, 0, 0, 0, 0]);
    assert_eq!(folder.read("list.bin").len(), 27);
}

#[test]
fn keywords_in_three_ways() {
    let folder = Folder::new("keywords");
    folder.write("list.txt", b"aba\r\n\naa\n");
    let want = "finds 3\n0 1 0\n0 3 0\n1 0 1\n";
    folder.prints("search store.bin recipes.bin --list list.txt --fold --format plain", want);
    folder.prints("search store.bin recipes.bin --word aBa --word Aa --fold --format plain", want);
    folder.prints("search store.bin recipes.bin --word aBa --format plain", "finds 0\n");
    folder.refuses("search store.bin recipes.bin --word aB --word Ab --fold", 4, "alike");
    assert_eq!(folder.run("search store.bin recipes.bin").0, 64);
    assert_eq!(folder.run("search store.bin recipes.bin --word A --list list.txt").0, 64);
    assert_eq!(folder.run("search store.bin recipes.bin --words words.bin --fold").0, 64);
}

/// A store and recipes of one file of these chunks.
fn vault_of(folder: &Folder, chunks: &[&[u8]]) {
    let stored: Vec<(u8, &[u8], &[u8])> = chunks.iter().enumerate().map(|(k, chunk)| (k as u8, &b""[..], *chunk)).collect();
    folder.write("store.bin", &store(&stored, b""));
    folder.write("recipes.bin", &recipes(&[&(0..chunks.len() as u8).collect::<Vec<_>>()]));
}

/// What the help says of --fold, on Latin-1 data and on UTF-8 data.
#[test]
fn accented_capitals() {
    let folder = Folder::new("accents");
    let plain = |words: &str, want: &str| {
        let (status, out, err) = folder.shell(&format!("$V search store.bin recipes.bin --format plain {words}"));
        assert_eq!((status, out.as_str()), (0, want), "{words}: {err}");
    };
    // caf\xE9, CAF | \xC9, \xD7 \xF7 \xDF \xFF.
    vault_of(&folder, &[b"caf\xE9 CAF", b"\xC9 \xD7\xF7\xDF\xFF"]);
    plain("--fold --word $'caf\\xe9'", "finds 2\n0 0 0\n0 5 0\n");
    plain("--fold --word $'Caf\\xc9'", "finds 2\n0 0 0\n0 5 0\n");
    plain("--word $'caf\\xe9'", "finds 1\n0 0 0\n");
    plain("--fold --word $'\\xd7' --word $'\\xff'", "finds 2\n0 10 0\n0 13 1\n");
    folder.write("latin1.txt", b"\xC9\n");
    plain("--fold --list latin1.txt", "finds 2\n0 3 0\n0 8 0\n");
    folder.write("alike.txt", b"\xC9t\xE9\n\xE9T\xC9\n");
    folder.refuses("check --list alike.txt --fold", 4, "alike");
    folder.prints("check --list alike.txt", "keywords: good, 2 of them\n");
    folder.write("words.bin", &[2, 1, 1, 0xDE, 1, 0xFE]);
    folder.refuses("scan store.bin --words words.bin -o index.bin", 4, "alike");
    let (status, _, err) = folder.shell("$V make-vault -o v --fold --word $'\\xc9' --word $'\\xe9' store.bin");
    assert!(status == 4 && !folder.0.join("v").exists(), "{err}");
    // A UTF-8 keyword in Latin-1 data, and in UTF-8 data: capital, small letter, and E3 89.
    plain("--fold --word $'\\xc3\\xa9'", "finds 0\n");
    vault_of(&folder, &["\u{C9} \u{E9} \u{3240}".as_bytes()]);
    plain("--fold --word $'\\xc3\\xa9'", "finds 1\n0 3 0\n");
    plain("--fold --word $'\\xc3\\x89' --word $'\\xc3\\xa9'", "finds 3\n0 0 0\n0 3 1\n0 6 0\n");
    plain("--word $'\\xc3\\x89'", "finds 1\n0 0 0\n");
}

#[test]
fn the_help_says_what_folds() {
    let (status, help, _) = Folder::new("help").run("--help");
    let words = help.split_whitespace().collect::<Vec<_>>().join(" ");
    for said in [
        "A to Z, and the accented capitals of Latin-1 (ISO/IEC 8859-1), bytes C0 to DE except D7 (the multiplication sign)",
        "DF, F7 and FF match only themselves",
        "UTF-8 has two bytes for such a letter",
        "capital and small letter do not match there, so give each as a keyword by its own bytes",
        "C3 and E3 match each other, so C3 89 also matches E3 89",
        "An index that was written with the fold flag before accented capitals folded (see --fold) has to be scanned anew",
        "No command can tell it from a new one, and none refuses it for its age",
    ] {
        assert!(status == 0 && words.contains(said), "{said}");
    }
    assert!(help.is_ascii() && help.lines().all(|line| line.len() <= 122), "it fits a terminal");
}

#[test]
fn the_help_names_the_limits() {
    let (_, help, _) = Folder::new("limits-told").run("--help");
    let thousands = |number: u64| {
        let digits = number.to_string();
        let parts: Vec<&str> = digits.as_bytes().rchunks(3).rev().map(|part| std::str::from_utf8(part).unwrap()).collect();
        parts.join(",")
    };
    let (chunk, chunks) = (vault::forms::LONGEST_CHUNK, vault::forms::MOST_CHUNKS);
    for said in [
        format!("{} chunks of 1 to {} bytes in a store", thousands(chunks as u64), thousands(chunk as u64)),
        format!("none of which ends beyond {} bytes (refusal 20)", thousands(vault::forms::GREATEST_END)),
        format!("64 to {}\n      (fixed: to {chunk})", chunk.div_ceil(4)),
    ] {
        assert!(help.contains(&said), "{said}");
    }
}

#[test]
fn an_index_is_kept_and_joined() {
    let folder = Folder::new("index");
    folder.prints("scan store.bin --words words.bin -o index.bin", "index.bin: 138 bytes for a store of 100 bytes, 10 moves\n");
    assert_eq!(folder.read("index.bin")[..4], *b"DM3\n");
    assert_eq!(folder.read("index.bin")[113..121], [0, 1, 2, 0, 0, 0, 0, 0]);
    folder.prints("join index.bin recipes.bin --format plain", "finds 3\n0 1 0\n0 3 0\n1 0 1\n");
    let good = "store.bin: good, 3 chunks, 8 bytes in them, 0 bytes in holes\nindex.bin: good, 3 chunks, mark DM3\nrecipes.bin: good, 3 files, 3 occurrences\n";
    folder.prints("check --store store.bin --index index.bin --recipes recipes.bin", good);
    let key = "02".repeat(20);
    folder.prints(&format!("lookup --store store.bin {key}"), "chunk of 4 bytes at 95\nABAX\n");
    folder.prints(&format!("lookup --store store.bin {key} -o chunk"), "");
    assert_eq!(folder.read("chunk"), b"ABAX");
    let explained = "keyword 0 (ABA): prefix 0, suffix 1, 1 inside: 0\nkeyword 1 (AA): prefix 0, suffix 1, 0 inside: \n";
    let body = format!("body of 11 bytes at 121, mark DM3\n{explained}");
    folder.prints(&format!("lookup --index index.bin {key}"), &body);
    folder.refuses(&format!("lookup --store store.bin {}", "04".repeat(20)), 15, "not there");
    folder.refuses("lookup --index index.bin 0102", 19, "20 bytes");
}

/// The small vault's chunks in a store with holes, in which keywords lie, begin and end: every command says what it says of the store
/// without them.
#[test]
fn a_store_with_holes() {
    let folder = Folder::new("holes");
    let keys = [1, 2, 3].map(|key| format!("{key:02}").repeat(20));
    let holed =
        |fillers: [&[u8]; 4]| store(&[(1, fillers[0], b"XAB"), (2, fillers[1], b"ABAX"), (3, fillers[2], b"A")], fillers[3]);
    assert_eq!(folder.run("scan store.bin --words words.bin -o index.bin").0, 0);
    assert_eq!(folder.run("search store.bin recipes.bin --words words.bin --format raw -o list.bin").0, 0);
    for (fillers, bytes) in [
        ([&b"ABA"[..], b"A", b"ABAAB", b"A"], 10),
        ([b"", b"", b"", b"AAAA"], 4),
        ([b"AB", b"", b"", b""], 2),
        ([b"", b"", b"\0", b"\0\0"], 3),
    ] {
        folder.write("holes.bin", &holed(fillers));
        folder
            .prints("check --store holes.bin", &format!("holes.bin: good, 3 chunks, 8 bytes in them, {bytes} bytes in holes\n"));
        let report = format!("other.bin: 138 bytes for a store of {} bytes, 10 moves\n", 100 + bytes);
        folder.prints("scan holes.bin --words words.bin -o other.bin", &report);
        assert_eq!(folder.read("other.bin"), folder.read("index.bin"));
        folder.prints("search holes.bin recipes.bin --words words.bin --format raw -o other.bin", "");
        assert_eq!(folder.read("other.bin"), folder.read("list.bin"));
        let (mut at, mut entries) = (92, String::new());
        for (k, chunk) in ["XAB", "ABAX", "A"].iter().enumerate() {
            at += fillers[k].len();
            let shown = format!("chunk of {} bytes at {at}\n{chunk}\n", chunk.len());
            folder.prints(&format!("lookup --store holes.bin {}", keys[k]), &shown);
            folder.prints(&format!("lookup --store holes.bin {} -o chunk", keys[k]), "");
            assert_eq!(folder.read("chunk"), chunk.as_bytes());
            entries += &format!("{}\t{at}\t{}\n", keys[k], chunk.len());
            at += chunk.len();
        }
        assert!(folder.run("check --store holes.bin --entries").1.ends_with(&entries));
    }
    folder.write("none.bin", &store(&[], b"ABA"));
    folder.prints("check --store none.bin", "none.bin: good, 0 chunks, 0 bytes in them, 3 bytes in holes\n");
}

/// A chunk that begins in the directory, or in the chunk before, or ends beyond the store: 7. 4,294,967,295 is the greatest end.
#[test]
fn what_is_no_hole() {
    let folder = Folder::new("no-hole");
    for (at, offset, code, said) in [
        (8 + 20, 91, 7, "its offset before the end of the directory or of the chunk before"),
        (8 + 48, 94, 7, "its offset before the end of the directory or of the chunk before"),
        (8 + 76, 100, 7, "the last chunk ends beyond the store"),
        (8 + 76, 0xFFFF_FFFE, 7, "the last chunk ends beyond the store"),
        (8 + 76, 0xFFFF_FFFFu32, 20, "beyond 4,294,967,295 bytes"),
    ] {
        let mut bytes = folder.read("store.bin");
        bytes[at..at + 4].copy_from_slice(&offset.to_le_bytes());
        folder.write("bad.bin", &bytes);
        folder.refuses("check --store bad.bin", code, said);
        folder.refuses("search bad.bin recipes.bin --words words.bin", code, said);
    }
}

/// Document 01's index, which an earlier version wrote.
fn old_index() -> Vec<u8> {
    let mut index = [&b"DM1\n\x03\0\0\0"[..], &[2, 0, 3, 0x41, 0x42, 0x41, 2, 0x41, 0x41]].concat();
    for (key, size, offset, length) in [(1, 3, 113, 7), (2, 4, 120, 10), (3, 1, 130, 6)] {
        index.extend([&[key; 20][..], &[size, 0, 0, 0, offset, 0, 0, 0, length, 0, 0, 0]].concat());
    }
    index.extend([0, 1, 2, 0, 0, 0, 0, 0, 1, 0, 1, 1, 0, 0, 1, 0, 2, 0, 0, 3, 1, 0, 3]);
    index
}

#[test]
fn an_index_under_the_old_mark() {
    let folder = Folder::new("old-mark");
    folder.write("old.bin", &old_index());
    folder.prints("join old.bin recipes.bin --format plain", "finds 3\n0 1 0\n0 3 0\n1 0 1\n");
    folder.prints("join old.bin recipes.bin --count", "3\n");
    let good = "old.bin: good, 3 chunks, mark DM1 (older; a scan writes DM3)\nrecipes.bin: good, 3 files, 3 occurrences\n";
    folder.prints("check --index old.bin --recipes recipes.bin", good);
    let (_, entries, _) = folder.run("check --index old.bin --entries");
    assert!(entries.ends_with(&format!("{}\t130\t6\n", "03".repeat(20))), "{entries}");
    let body = "body of 10 bytes at 120, mark DM1 (older; a scan writes DM3)\nkeyword 0 (ABA): prefix 0, suffix 1, 1 inside: 0\nkeyword 1 (AA): prefix 0, suffix 1, 0 inside: \n";
    folder.prints(&format!("lookup --index old.bin {}", "02".repeat(20)), body);
    // Its chunks have at most 65,535 bytes, those of the newest mark 1,048,576; the bodies of one are not good under the other.
    for (mark, size, code) in [
        (b"DM1\n", 65_535u32, 0),
        (b"DM1\n", 65_536, 11),
        (b"DM2\n", 65_536, 0),
        (b"DM2\n", 1_048_576, 0),
        (b"DM2\n", 1_048_577, 11),
        (b"DM3\n", 1_048_576, 0),
        (b"DM3\n", 1_048_577, 11),
        (b"DM4\n", 1, 10),
    ] {
        let entry = [&[1; 20][..], &size.to_le_bytes(), &[44, 0, 0, 0, 0, 0, 0, 0]].concat();
        folder.write("long.bin", &[&mark[..], &[1, 0, 0, 0, 1, 0, 1, 0x41], &entry].concat());
        let (status, out, err) = folder.run("check --index long.bin");
        assert_eq!(status, code, "{out}{err}");
    }
    for mark in [b"DM2\n", b"DM3\n"] {
        folder.write("old.bin", &[mark, &old_index()[4..]].concat());
        folder.refuses("join old.bin recipes.bin", 13, "written form");
    }
}

/// Document 01's refused case: 17 with an index of the older marks, a list with the newest, by scan and join and by search.
#[test]
fn a_short_chunk_inside_a_file() {
    let folder = Folder::new("short-inside");
    assert_eq!(folder.run("scan store.bin --words words.bin -o index.bin").0, 0);
    folder.write("three.bin", &recipes(&[&[1, 3, 2]]));
    let list = "finds 3\n0 1 0\n0 3 1\n0 4 0\n";
    folder.prints("join index.bin three.bin --format plain", list);
    folder.prints("search store.bin three.bin --words words.bin --format plain", list);
    for old in [old_index(), [b"DM2\n", &folder.read("index.bin")[4..]].concat()] {
        folder.write("old.bin", &old);
        folder.prints("join old.bin recipes.bin --format plain", "finds 3\n0 1 0\n0 3 0\n1 0 1\n");
        folder.refuses("join old.bin three.bin -o out", 17, "shorter than the longest keyword");
        folder.refuses("join old.bin three.bin --count", 17, "of too old a mark (DM1 or DM2)");
        folder.refuses("check --index old.bin --recipes three.bin", 17, "scan the store anew");
        assert!(!folder.0.join("out").exists(), "a refusal writes nothing");
    }
}

/// Small logs: each letter a chunk. What a set of inner starts says is shown.
#[test]
fn keywords_over_many_chunks() {
    let folder = Folder::new("many-chunks");
    folder.write(
        "letters.bin",
        &store(&[(1, b"", b"l"), (2, b"", b"o"), (3, b"", b"g"), (4, b"", b"in"), (5, b"", b"."), (6, b"", b"ogi")], b""),
    );
    folder.write("files.bin", &recipes(&[&[1, 2, 3, 4], &[5, 1, 2, 3, 4, 5, 1, 6], &[1, 2, 3], &[4], &[1, 2, 5, 3, 4]]));
    folder.prints(
        "search letters.bin files.bin --word login --word logi --format plain",
        "finds 5\n0 0 0\n0 0 1\n1 1 0\n1 1 1\n1 7 1\n",
    );
    assert_eq!(folder.run("scan letters.bin --word login --word oooo -o index.bin").0, 0);
    let lookup = |key: u8, start: &str, want: &str| {
        let (status, out, err) = folder.run(&format!("lookup --index index.bin {}", format!("{key:02}").repeat(20)));
        assert!(status == 0 && out.starts_with(start) && out.ends_with(&format!(", mark DM3\n{want}")), "{out}{err}");
    };
    lookup(1, "body of 3 bytes at ", "keyword 0 (login): prefix 1, suffix 0, 0 inside: \n");
    let twice = "keyword 0 (login): the chunk inside it at 1\nkeyword 1 (oooo): prefix 1, suffix 1, 0 inside: \nkeyword 1 (oooo): the chunk inside it at 1 2\n";
    lookup(2, "body of 15 bytes at ", twice);
    lookup(4, "body of 8 bytes at ", "keyword 0 (login): prefix 0, suffix 2, 0 inside: \n");
    let first = "keyword 0 (login): the chunk inside it at 1\nkeyword 1 (oooo): prefix 0, suffix 1, 0 inside: \n";
    lookup(6, "body of 9 bytes at ", first);
    lookup(5, "body of 0 bytes at ", "no keyword has a record\n");
}

/// A chunk of 1,048,576 bytes, from plain files to the list, by both cuts: also with an occurrence at each byte.
#[test]
fn the_longest_chunk_end_to_end() {
    let folder = Folder::new("longest");
    let mut data = vec![b'.'; 2 * 1_048_576 + 7];
    let at = [0, 65_533, 65_536, 131_069, 1_048_569, 1_048_574, 2_097_148, 2_097_153];
    at.iter().for_each(|at| data[*at..*at + 5].copy_from_slice(b"video"));
    // 65,533 to 65,538 crosses the first window, and the one behind it is cut by it.
    let want: Vec<usize> = at.into_iter().filter(|at| data[*at..].starts_with(b"video")).collect();
    assert!(want.len() >= 6);
    folder.write("film", &data);
    let rows: String = want.iter().map(|at| format!("0 {at} 0\n")).collect();
    for cut in ["fixed --size 1048576", "content --size 262144"] {
        let (status, out, err) = folder.run(&format!("make-vault -o v --cut {cut} film"));
        assert_eq!(status, 0, "{err}");
        assert!(!cut.starts_with("fixed") || out.contains("in 3 chunks of "), "{out}");
        folder.prints("search v/store.bin v/recipes.bin --word video --format plain", &format!("finds {}\n{rows}", want.len()));
    }
    folder.write("film", &[b'A'; 1_048_576]);
    assert_eq!(folder.run("make-vault -o v --cut fixed --size 1048576 film").0, 0);
    let (status, out, err) = folder.run("scan v/store.bin --word A -o index.bin");
    assert!(status == 0 && out.ends_with(", 2097151 moves\n"), "{out}{err}");
    assert_eq!(folder.read("index.bin").len(), 8 + 4 + 32 + 11 + 3 * 1_048_576);
    folder.prints("join index.bin v/recipes.bin --count", "1048576\n");
    let (status, out, _) = folder.run("join index.bin v/recipes.bin --format plain");
    assert!(status == 0 && out.starts_with("finds 1048576\n0 0 0\n") && out.ends_with("\n0 1048575 0\n"));
    // One byte more is no chunk, and no size.
    let long = [&b"DV1\n\x01\0\0\0"[..], &[7; 20], &[36, 0, 0, 0, 1, 0, 0x10, 0], &[b'A'; 1_048_577]].concat();
    folder.write("long.bin", &long);
    folder.refuses("check --store long.bin", 7, "not 1 to 1,048,576");
    assert_eq!(folder.run("make-vault -o v --cut fixed --size 1048577 film").0, 64);
    assert_eq!(folder.run("make-vault -o v --cut content --size 262145 film").0, 64);
}

/// A store of 4,096 of the longest chunks: only its directory is there.
#[test]
fn a_store_that_ends_beyond_32_bits() {
    let folder = Folder::new("beyond");
    let directory = |last: u32| {
        let mut store = [&b"DV1\n"[..], &4_096u32.to_le_bytes()].concat();
        for k in 0..4_096u32 {
            let (offset, size) = (114_696 + 1_048_576 * u64::from(k), if k < 4_095 { 1_048_576 } else { last });
            store.extend([&k.to_le_bytes().repeat(5)[..], &(offset as u32).to_le_bytes(), &size.to_le_bytes()].concat());
        }
        store
    };
    folder.write("beyond.bin", &directory(933_880));
    let meaning = "beyond 4,294,967,295 bytes, where no chunk of a store may end: part the backup into several stores";
    folder.refuses("check --store beyond.bin", 20, meaning);
    folder.refuses("search beyond.bin recipes.bin --words words.bin", 20, meaning);
    folder.refuses("scan beyond.bin --words words.bin -o index.bin", 20, meaning);
    folder.refuses(&format!("lookup --store beyond.bin {}", "01".repeat(20)), 20, meaning);
    let (_, _, err) = folder.run("search beyond.bin recipes.bin --words words.bin");
    assert!(err.contains("beyond.bin: refused 20: "), "it names the store: {err}");
    assert!(!folder.0.join("index.bin").exists());
    // An end at 4,294,967,295 isn't beyond it; the chunks are absent.
    folder.write("beyond.bin", &directory(933_879));
    folder.refuses("check --store beyond.bin", 7, "the last chunk ends beyond the store");
    let (_, help, _) = folder.run("--help");
    assert!(help.contains("1 to 23  refused") && help.contains("part the backup into several stores"));
}

#[test]
fn a_scan_tells_its_moves() {
    let folder = Folder::new("moves");
    for (words, chunk, told) in [
        ("--word DEDUP --word UP", &b"DEDE"[..], "5 moves"),
        ("--word DEDUP --word UP", b"DEDUPX", "8 moves"),
        ("--word dedup --word Up --fold", b"DeDUPx", "8 moves"),
        ("--word AAAA", b"AAAX", "7 moves"),
        ("--word A", b"B", "1 move"),
    ] {
        folder.write("one.bin", &store(&[(7, b"", chunk)], b""));
        let (status, out, err) = folder.run(&format!("scan one.bin {words} -o index.bin"));
        assert!(status == 0 && out.ends_with(&format!(" bytes, {told}\n")), "{out}{err}");
    }
    folder.write("none.bin", b"DV1\n\0\0\0\0");
    folder.prints("scan none.bin --word A -o index.bin", "index.bin: 12 bytes for a store of 8 bytes, 0 moves\n");
    // On standard error where the index goes to standard output; a search and a refusal tell none.
    let (_, _, err) = folder.run("scan none.bin --word A -o /dev/stdout");
    assert!(err.ends_with("/dev/stdout: 12 bytes for a store of 8 bytes, 0 moves\n"), "{err}");
    for words in ["search store.bin recipes.bin --words words.bin", "scan words.bin --word A -o index.bin"] {
        let (_, out, err) = folder.run(words);
        assert!(!(out + &err).contains("move"), "{words}");
    }
    let (_, help, _) = folder.run("--help");
    assert!(help.contains("It tells the moves in the keywords' trie: each failure link followed"));
}

#[test]
fn every_refusal_is_told() {
    let folder = Folder::new("refusals");
    folder.run("scan store.bin --words words.bin -o index.bin");
    let (store, index, words) = (folder.read("store.bin"), folder.read("index.bin"), folder.read("words.bin"));
    let with = |bytes: &[u8], at: usize, byte: u8| {
        let mut bytes = bytes.to_vec();
        bytes[at] = byte;
        bytes
    };
    for (code, bytes, meaning) in [
        (1, words[..8].to_vec(), "cut short"),
        (2, with(&words, 0, 17), "1 to 16"),
        (3, with(&words, 2, 33), "1 to 32"),
        (4, vec![2, 1, 1, 0x41, 1, 0x61], "alike"),
    ] {
        folder.write("bad", &bytes);
        folder.refuses("search store.bin recipes.bin --words bad", code, meaning);
    }
    for (code, bytes, meaning) in [
        (5, index.clone(), "not a store"),
        (6, with(&store, 4, 200), "directory"),
        (7, store[..99].to_vec(), "the last chunk ends beyond the store"),
        (8, [&store[..36], &[1; 20], &store[56..]].concat(), "twice"),
    ] {
        folder.write("bad", &bytes);
        folder.refuses("search bad recipes.bin --words words.bin", code, meaning);
        folder.refuses("check --store bad", code, meaning);
    }
    for (code, bytes, meaning) in [
        (10, store.clone(), "not an index"),
        (11, index[..137].to_vec(), "doesn't end"),
        (12, [&index[..49], &[1; 20], &index[69..]].concat(), "twice"),
        (13, with(&index, 113, 9), "written form"),
    ] {
        folder.write("bad", &bytes);
        folder.refuses("join bad recipes.bin", code, meaning);
        folder.refuses("check --index bad", code, meaning);
    }
    for (code, bytes, meaning) in [(14, vec![1, 0, 0], "not recipes"), (15, recipes(&[&[9]]), "not there")] {
        folder.write("bad", &bytes);
        folder.refuses("join index.bin bad", code, meaning);
        folder.refuses("search store.bin bad --words words.bin -o out", code, meaning);
        assert!(!folder.0.join("out").exists(), "a refusal writes nothing");
    }
    // 65,538 times a chunk of 65,535 bytes.
    let mut long = [&b"DV1\n\x01\0\0\0"[..], &[7; 20], &[36, 0, 0, 0, 0xFF, 0xFF, 0, 0]].concat();
    long.resize(36 + 65_535, b'.');
    folder.write("long", &long);
    folder.write("bad", &[&[1, 0, 0, 0, 2, 0, 1, 0][..], &[7; 20 * 65_538]].concat());
    folder.refuses("search long bad --words words.bin", 16, "4,294,967,295");
}

#[test]
fn wrong_command_lines_and_files() {
    let folder = Folder::new("usage");
    for words in [
        "frob",
        "search store.bin",
        "scan store.bin --word A",
        "search --frob",
        "join a b --format x",
        "check",
        "lookup 01",
        "make-vault -o x",
        "compact store.bin recipes.bin",
        "compact store.bin -o x",
        "compact -o x",
        "search a b --word",
    ] {
        let (status, _, err) = folder.run(words);
        assert_eq!(status, 64, "{words}: {err}");
    }
    assert_eq!(folder.run("search nothing recipes.bin --word A").0, 74);
    assert_eq!(folder.run("scan store.bin --word A -o no/such/folder").0, 74);
    let (status, out, _) = folder.run("--help");
    assert!(status == 0 && out.contains("EXIT STATUS"));
}

#[test]
fn a_vault_of_plain_files() {
    let folder = Folder::new("make");
    fs::create_dir_all(folder.0.join("in/sub")).unwrap();
    let text = |n: usize| (0..n).map(|k| b"lorem ipsum dolor "[(k * k / 7) % 18]).collect::<Vec<u8>>();
    folder.write("in/a", &[text(3000), b"the keyword".to_vec(), text(9000)].concat());
    folder.write("in/empty", b"");
    folder.write("in/sub/b", &[b"the keyword".to_vec(), text(9000)].concat());
    for cut in ["content --size 256", "fixed --size 64", "fixed --size 65535", "fixed --size 1048576", "content --size 262144"] {
        let (status, _, err) = folder.run(&format!("make-vault -o v --cut {cut} in"));
        assert_eq!(status, 0, "{err}");
        let found = "file\toffset\tkeyword\ttext\tname\n0\t3000\t0\tthe keyword\tin/a\n2\t0\t0\tthe keyword\tin/sub/b\n";
        folder.write("list.txt", b"the keyword\n");
        folder.prints("search v/store.bin v/recipes.bin --list list.txt --names v/names.txt --format tsv", found);
        let (status, _, err) = folder.run(&format!("make-vault -o v --cut {cut} --list list.txt --fold in"));
        assert_eq!(status, 0, "{err}");
        assert_eq!(fs::read(folder.0.join("v/words.bin")).unwrap(), b"\x01\x01\x0bthe keyword");
        folder.prints("search v/store.bin v/recipes.bin --words v/words.bin --names v/names.txt --format tsv", found);
    }
}

#[test]
fn options_that_a_command_does_not_use() {
    let folder = Folder::new("options");
    folder.write("index.bin", b"");
    folder.write("list.txt", b"A\n");
    let options = [
        "--word A",
        "--list list.txt",
        "--words words.bin",
        "--fold",
        "--store store.bin",
        "--index index.bin",
        "--recipes recipes.bin",
        "--names names.txt",
        "-o out",
        "--format tsv",
        "--cut fixed",
        "--size 64",
        "--count",
        "--entries",
    ];
    for (command, used) in [
        ("search store.bin recipes.bin", "--word --list --words --fold --names -o --format --count"),
        ("scan store.bin", "--word --list --words --fold -o"),
        ("join index.bin recipes.bin", "--names -o --format --count"),
        ("check", "--word --list --words --fold --store --index --recipes --entries"),
        ("lookup 01", "--store --index -o"),
        ("compact store.bin words.bin", "-o"),
        ("make-vault in", "--word --list --words --fold -o --cut --size"),
    ] {
        for option in options {
            let name = option.split(' ').next().unwrap();
            let (status, _, err) = folder.run(&format!("{command} {option}"));
            let refused = err.contains(&format!("does not use {name}\n"));
            assert_eq!(refused, !used.split(' ').any(|used| used == name), "{command} {option}: {err}");
            assert!(!refused || status == 64, "{command} {option}: {status}");
            let (status, _, err) = folder.run(&format!("{command} {option} {option}"));
            let twice = status == 64 && err.contains(&format!("{name} is given twice"));
            assert_eq!(twice, name != "--word", "{command} {option} {option}: {err}");
        }
    }
    assert!(!folder.0.join("out").exists());
}

#[test]
fn options_without_use_beside_others() {
    let folder = Folder::new("pairs");
    folder.write("names.txt", b"a\nb\nc\n");
    let search = "search store.bin recipes.bin --words words.bin";
    for words in [
        &format!("{search} -o a --output b"),
        &format!("{search} --quiet --quiet"),
        &format!("{search} --count --format tsv"),
        &format!("{search} --count --names names.txt"),
        &format!("{search} --format raw --names names.txt"),
        &format!("{search} --format plain --names names.txt"),
        &format!("{search} --fold"),
        "check --store store.bin --fold",
        "check --words words.bin --entries",
        "make-vault -o v --fold recipes.bin",
        "check --recipes recipes.bin --store store.bin",
        "search store.bin recipes.bin more --word A",
        "check more --store store.bin",
    ] {
        let (status, _, err) = folder.run(words);
        assert_eq!(status, 64, "{words}: {err}");
    }
}

#[test]
fn a_byte_order_mark_is_no_keyword() {
    let folder = Folder::new("mark");
    folder.write("list.txt", b"\xEF\xBB\xBFABA\r\nAA\r\n");
    folder.prints("search store.bin recipes.bin --list list.txt --format plain", "finds 3\n0 1 0\n0 3 0\n1 0 1\n");
    folder.prints("check --list list.txt", "keywords: good, 2 of them\n");
}

#[test]
fn recipes_of_a_refused_index_are_not_called_good() {
    let folder = Folder::new("unchecked");
    folder.write("bad", b"");
    let (status, out, _) = folder.run("check --index bad --recipes recipes.bin");
    assert_eq!(status, 10);
    assert!(out.ends_with("recipes.bin: not checked, since the index is refused\n"), "{out}");
}
