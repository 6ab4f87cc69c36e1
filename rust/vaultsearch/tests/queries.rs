//! Several keywords in order: `query` by numbers and by keywords, in each format, with its refusals.

mod common;

use common::{recipes, store, Folder};
use std::fs;

/// Keywords ABA, AA and X, and the files XABABAX, AA, ABAXABAX, XABA and none.
fn folder(name: &str) -> Folder {
    let folder = Folder::new(name);
    folder.write("words.bin", &[3, 0, 3, 0x41, 0x42, 0x41, 2, 0x41, 0x41, 1, 0x58]);
    folder.write("recipes.bin", &recipes(&[&[1, 2], &[3, 3], &[2, 2], &[1, 3], &[]]));
    folder.write("names.txt", b"a\nb\nin/c d\n\\xff\ne\n");
    assert_eq!(folder.run("scan store.bin --words words.bin -o index.bin").0, 0);
    folder
}

const QUERY: &str = "query index.bin recipes.bin";

#[test]
fn by_number() {
    let folder = folder("query");
    for (order, lines) in [
        ("0,0", "lines 1\n2 0 4\n"),
        ("0,2", "lines 2\n0 1 6\n2 0 3\n"),
        ("2,0", "lines 3\n0 0 1\n2 3 4\n3 0 1\n"),
        ("2,0,2", "lines 2\n0 0 1 6\n2 3 4 7\n"),
        ("0,2,0,2", "lines 1\n2 0 3 4 7\n"),
        ("1,1", "lines 0\n"),
        ("2,2,2", "lines 0\n"),
        ("0,0,0,0,0,0,0,0", "lines 0\n"),
    ] {
        folder.prints(&format!("{QUERY} --order {order} --format plain"), lines);
        folder.prints(&format!("{QUERY} --count --order {order}"), &format!("{}\n", lines.lines().count() - 1));
    }
}

#[test]
fn formats() {
    let folder = folder("query-formats");
    let line = format!("{QUERY} --order 2,0,2");
    folder.prints(
        &line,
        "file 0\n           0  X\n           1  ABA\n           6  X\nfile 2\n           3  X\n           4  ABA\n           7  X\n\
         2 of 5 files have these keywords in this order\n",
    );
    folder.prints(
        &format!("{QUERY} --order 0,0 --names names.txt"),
        "file 2  in/c d\n           0  ABA\n           4  ABA\n1 of 5 files has these keywords in this order\n",
    );
    folder.prints(
        &format!("{QUERY} --order 2,0 --format tsv --names names.txt"),
        "file\tstep\toffset\tkeyword\ttext\tname\n0\t0\t0\t2\tX\ta\n0\t1\t1\t0\tABA\ta\n2\t0\t3\t2\tX\tin/c d\n2\t1\t4\t0\tABA\tin/c d\n\
         3\t0\t0\t2\tX\t\\xff\n3\t1\t1\t0\tABA\t\\xff\n",
    );
    folder.prints(
        &format!("{QUERY} --order 2,0 --format jsonl --names names.txt"),
        "{\"file\":0,\"name\":\"a\",\"found\":[{\"keyword\":2,\"text\":\"X\",\"offset\":0},{\"keyword\":0,\"text\":\"ABA\",\"offset\":1}]}\n\
         {\"file\":2,\"name\":\"in/c d\",\"found\":[{\"keyword\":2,\"text\":\"X\",\"offset\":3},{\"keyword\":0,\"text\":\"ABA\",\"offset\":4}]}\n\
         {\"file\":3,\"name\":\"\\\\xff\",\"escaped\":true,\"found\":[{\"keyword\":2,\"text\":\"X\",\"offset\":0},{\"keyword\":0,\"text\":\"ABA\",\"offset\":1}]}\n",
    );
    folder.prints(
        &format!("{QUERY} --order 0,0 --format jsonl"),
        "{\"file\":2,\"found\":[{\"keyword\":0,\"text\":\"ABA\",\"offset\":0},{\"keyword\":0,\"text\":\"ABA\",\"offset\":4}]}\n",
    );
    folder.prints(&format!("{QUERY} --order 0,2 --format raw -o raw.bin"), "");
    let rows: [[u8; 12]; 2] = [[0, 0, 0, 0, 1, 0, 0, 0, 6, 0, 0, 0], [2, 0, 0, 0, 0, 0, 0, 0, 3, 0, 0, 0]];
    assert_eq!(folder.read("raw.bin"), rows.concat());
    folder.prints(&format!("{line} --format plain -o plain.txt"), "");
    assert_eq!(folder.read("plain.txt"), b"lines 2\n0 0 1 6\n2 3 4 7\n");
    for format in ["plain", "raw"] {
        folder.fails(&format!("$V {line} --names names.txt --format {format}"), 64, "have no names");
    }
    folder.fails(&format!("$V {line} --count --format tsv"), 64, "--count prints a number only");
}

/// By the keywords themselves: each is found in the index, under its fold flag.
#[test]
fn by_keyword() {
    let folder = folder("query-then");
    let same = |then: &str, order: &str| {
        let asked = |by: &str| folder.run(&format!("{QUERY} {by} --format plain"));
        assert_eq!(asked(then), asked(order), "{then}");
        assert_eq!(asked(then).0, 0);
    };
    same("--then X --then ABA --then X", "--order 2,0,2");
    same("--then ABA --then ABA", "--order 0,0");
    for (then, said) in [
        ("--then ABA --then B", "--then B: no keyword of index.bin (ABA, AA, X)"),
        ("--then ABA --then aba", "--then aba: no keyword of index.bin (ABA, AA, X)"),
        ("--then '' --then ABA", "no keyword of index.bin"),
        (&format!("--then ABA --then {}", "A".repeat(33)), "no keyword of index.bin"),
        ("--then ABA --then $'A\\xff'", "--then A\\xff: no keyword"),
    ] {
        folder.fails(&format!("$V {QUERY} {then}"), 64, said);
    }
    let scan = "$V scan store.bin --fold -o folded.bin --word aba --word $'\\xc9t\\xe9'";
    assert_eq!(folder.shell(scan).0, 0);
    let folded = |then: &str| folder.shell(&format!("$V query folded.bin recipes.bin --format plain {then}"));
    assert_eq!(folded("--then Aba --then aBA").1, "lines 1\n2 0 4\n");
    assert_eq!(folded("--then ABA --then $'\\xe9T\\xc9'").1, "lines 0\n");
    assert_eq!(folded("--then ABA --then $'\\xd7t\\xe9'").0, 64);
}

/// Each number names what it is about, and leaves an old output as it was.
#[test]
fn refusals() {
    let folder = folder("query-refusals");
    folder.write("out", b"old");
    let refused = |line: &str, code: i32, about: &str| {
        let before = folder.entries();
        folder.refuses(&format!("{line} -o out"), code, &format!("{about}: refused {code}: "));
        folder.refuses(&format!("{line} --count -o out"), code, &format!("{about}: refused {code}: "));
        assert_eq!((folder.read("out"), folder.entries()), (b"old".to_vec(), before), "{line}");
    };
    for order in ["--order 0", "--order 0,1,0,1,0,1,0,1,0", "--order 0,3", "--order 255,0", "--then ABA"] {
        refused(&format!("{QUERY} {order}"), 21, "the query");
    }
    let nine = " --then X".repeat(9);
    refused(&format!("{QUERY}{nine}"), 21, "the query");
    assert_eq!(folder.shell(&format!("$V {QUERY} --order ''")).0, 21);
    let index = folder.read("index.bin");
    let spoiled = |at: usize, byte: u8| [&index[..at], &[byte], &index[at + 1..]].concat();
    let directory = 8 + 11;
    let twins = [&index[..directory + 32], &[1; 20], &index[directory + 52..]].concat();
    folder.write("short", &[1, 0, 0]);
    for (code, bytes) in [
        (10, index[..7].to_vec()),
        (1, index[..9].to_vec()),
        (2, spoiled(9, 2)),
        (3, spoiled(10, 0)),
        (11, index[..index.len() - 1].to_vec()),
        (12, twins),
        (13, spoiled(directory + 96, 9)),
    ] {
        folder.write("bad", &bytes);
        // The index's numbers come before those of recipes and query; by keywords too, and before one that it doesn't have.
        refused("query bad short --order 9", code, "bad");
        refused("query bad short --then nothing", code, "bad");
    }
    refused("query index.bin short --order 9", 14, "short");
    folder.write("absent", &recipes(&[&[1], &[2, 4]]));
    refused("query index.bin absent --order 9", 15, "absent");
    // Document 01's refused case: 17 under an older mark, before 21; the newest one has it.
    folder.write("three", &recipes(&[&[1, 3, 2]]));
    folder.write("older.bin", &[b"DM2\n", &index[4..]].concat());
    refused("query older.bin three --order 9", 17, "three");
    refused("query older.bin three --order 0,0", 17, "three");
    folder.prints("query index.bin three --order 0,0 --format plain", "lines 1\n0 1 4\n");
    refused("query index.bin three --order 9", 21, "the query");
    folder.prints("query older.bin recipes.bin --order 0,0 --format plain", "lines 1\n2 0 4\n");
}

#[test]
fn wrong_command_lines() {
    let folder = folder("query-usage");
    for (line, said) in [
        (QUERY.to_string(), "give the order: --order NUMBERS"),
        (format!("{QUERY} --order 0,1 --then X"), "one of --order and --then"),
        (format!("{QUERY} --order 0,1 --order 0,1"), "--order is given twice"),
        (format!("{QUERY} --order"), "--order wants a value"),
        (format!("{QUERY} --order 0,x"), "--order wants keyword numbers"),
        (format!("{QUERY} --order 0,256"), "not 0,256"),
        (format!("{QUERY} --order 0,,1"), "not 0,,1"),
        (format!("{QUERY} --order 0,1 --word X"), "query does not use --word"),
        (format!("{QUERY} --order 0,1 --format csv"), "--format is human"),
        ("query index.bin --order 0,1".into(), "query wants INDEX and RECIPES"),
        ("join index.bin recipes.bin --order 0,1".into(), "join does not use --order"),
        ("search store.bin recipes.bin --then X --word X".into(), "search does not use --then"),
    ] {
        folder.fails(&format!("$V {line}"), 64, said);
    }
    for input in ["index.bin", "recipes.bin", "names.txt"] {
        let before = folder.read(input);
        folder.fails(&format!("$V {QUERY} --order 0,1 --names names.txt -o {input}"), 64, input);
        assert_eq!(folder.read(input), before);
    }
    folder.fails(&format!("$V {QUERY} --order 0,1 --names words.bin"), 74, "names, but the recipes have 5 files");
    folder.fails("$V query nothing recipes.bin --order 0,1", 74, "nothing: ");
}

/// A vault of plain files in small chunks, beside a search of the files themselves.
#[test]
fn plain_files() {
    let folder = folder("query-files");
    fs::create_dir(folder.0.join("in")).unwrap();
    let words = ["invoice", "paid", "cash"];
    let text = |seed: usize| {
        let parts = ["invoice", "paid", "cash", ", ", "paidcash", "invoi", "ce ", "no cash"];
        (0..40)
            .map(|k| parts[(k * k + 3 * seed * k + seed / 3) % 8 * (k % 3).min(1)])
            .collect::<String>()
            .replace("invoiceinvoice", "-")
    };
    let mut texts: Vec<String> = (0..12).map(text).collect();
    texts.extend(
        ["invoice paid cash", "paid invoice cash", "cash paid invoice", "invoicepaidcash", "invoice pai d cash"]
            .map(String::from),
    );
    for (k, text) in texts.iter().enumerate() {
        folder.write(&format!("in/{k:02}"), text.as_bytes());
    }
    assert_eq!(folder.run("make-vault -o v --cut fixed --size 64 in").0, 0);
    assert_eq!(folder.run("scan v/store.bin --word invoice --word paid --word cash -o v/index.bin").0, 0);
    let mut lines = 0;
    for query in [vec![0, 1, 2], vec![2, 1, 0], vec![1, 1], vec![0, 2, 0, 2, 0], vec![2; 8]] {
        let mut want = Vec::new();
        for (file, text) in texts.iter().enumerate() {
            let mut from = 0;
            let choice: Option<Vec<String>> = query
                .iter()
                .map(|k: &usize| {
                    let at = from + text[from..].find(words[*k])?;
                    from = at + words[*k].len();
                    Some(at.to_string())
                })
                .collect();
            want.extend(choice.map(|offsets| format!("{file} {}", offsets.join(" "))));
        }
        let then: String = query.iter().map(|k| format!(" --then {}", words[*k])).collect();
        let (status, out, err) = folder.run(&format!("query v/index.bin v/recipes.bin --format plain{then}"));
        assert_eq!(
            (status, out),
            (0, format!("lines {}\n{}", want.len(), want.iter().map(|l| format!("{l}\n")).collect::<String>())),
            "{err}"
        );
        lines += want.len();
    }
    assert!(lines > 15, "{lines}");
    let (_, human, _) = folder.run("query v/index.bin v/recipes.bin --then invoice --then paid --then cash --names v/names.txt");
    assert!(human.contains("file 12  in/12\n           0  invoice\n           8  paid\n          13  cash\n"), "{human}");
}

/// A chunk inside a file is shorter than the keywords, which then go over several of them.
#[test]
fn keywords_over_many_chunks() {
    let folder = folder("query-chunks");
    let letters: Vec<(u8, &[u8], &[u8])> =
        vec![(b'i', b"", b"i"), (b'n', b"in", b"n"), (b'p', b"", b"p"), (b'a', b"", b"a"), (b'd', b"", b"d")];
    folder.write("store.bin", &store(&letters, b"inpaid"));
    folder.write("recipes.bin", &recipes(&[b"inpaid", b"paidin", b"inipaid"]));
    assert_eq!(folder.run("scan store.bin --word in --word paid -o index.bin").0, 0);
    folder.prints(&format!("{QUERY} --order 0,1 --format plain"), "lines 2\n0 0 2\n2 0 3\n");
    folder.prints(&format!("{QUERY} --order 1,0 --format plain"), "lines 1\n1 0 4\n");
}

#[test]
fn the_help_tells_of_queries() {
    let (_, help, _) = Folder::new("query-help").run("--help");
    let words = help.split_whitespace().collect::<Vec<_>>().join(" ");
    for said in [
        "query INDEX RECIPES --order NUMBERS [OUTPUT]",
        "each starts at or after the end of the one before",
        "21 is a query that is not 2 to 8 keywords, or has a number that no keyword of the index has",
    ] {
        assert!(words.contains(said), "{said}");
    }
}
