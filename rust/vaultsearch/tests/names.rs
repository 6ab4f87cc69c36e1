//! Names of any bytes: kept by names.txt, harmless on a terminal, as many as there are files.

mod common;

use common::Folder;
use std::ffi::OsStr;
use std::fs;
use std::os::unix::ffi::OsStrExt;

const SEARCH: &str = "search v/store.bin v/recipes.bin --word secret --names v/names.txt";

/// A vault of a file that contains the keyword, for each of these names.
fn vault_of(name: &str, files: &[&[u8]]) -> Folder {
    let folder = Folder::new(name);
    fs::create_dir(folder.0.join("in")).unwrap();
    for file in files {
        fs::write(folder.0.join("in").join(OsStr::from_bytes(file)), b"a secret").unwrap();
    }
    let (status, _, err) = folder.run("make-vault -o v in");
    assert_eq!(status, 0, "{err}");
    folder
}

fn harmless(text: &str) {
    assert!(!text.chars().any(|c| c.is_control() && c != '\n' && c != '\t'), "{text:?}");
}

#[test]
fn names_keep_every_byte() {
    let files: [&[u8]; 5] = [b"a\nb", b"back\\slash", b"esc\x1b[2J\r\x7f", b"latin \xe9", "\u{fc}\u{9b}".as_bytes()];
    let folder = vault_of("names", &files);
    let lines = "in/a\\x0ab\nin/back\\\\slash\nin/esc\\x1b[2J\\x0d\\x7f\nin/latin \\xe9\nin/\u{fc}\\xc2\\x9b\n";
    assert_eq!(String::from_utf8(folder.read("v/names.txt")).unwrap(), lines);
    let (_, tsv, _) = folder.run(&format!("{SEARCH} --format tsv"));
    let (_, human, _) = folder.run(SEARCH);
    harmless(&tsv);
    harmless(&human);
    let column: String = tsv.lines().skip(1).map(|row| row.split('\t').nth(4).unwrap().to_string() + "\n").collect();
    assert_eq!(column, lines);
    assert!(lines.lines().all(|line| human.contains(&format!("  {line}\n"))), "{human}");
    let (_, jsonl, _) = folder.run(&format!("{SEARCH} --format jsonl"));
    harmless(&jsonl);
    for name in [
        "\"in/a\\u000ab\"}",
        "\"in/back\\\\slash\"}",
        "\"in/esc\\u001b[2J\\u000d\\u007f\"}",
        "\"in/latin \\\\xe9\",\"escaped\":true}",
        "\"in/\u{fc}\\u009b\"}",
    ] {
        assert!(jsonl.lines().any(|line| line.ends_with(&format!("\"name\":{name}"))), "{name}: {jsonl}");
    }
}

#[test]
fn names_are_as_many_as_files() {
    let folder = vault_of("count", &[b"a", b"b"]);
    for (lines, status, said) in [
        ("a\nb\n", 0, ""),
        ("a\nb", 0, ""),
        ("a\r\nb\r\n", 0, ""),
        ("a\n", 74, "v/names.txt: 1 names, but the recipes have 2 files"),
        ("", 74, "0 names"),
        ("a\nb\nc\n", 74, "3 names"),
        ("a\nb\n\n", 74, "3 names"),
        ("a\n\\q\n", 74, "v/names.txt: line 2: a backslash"),
        ("\\x4\nb\n", 74, "line 1: "),
    ] {
        folder.write("v/names.txt", lines.as_bytes());
        let (ended, out, err) = folder.run(SEARCH);
        assert_eq!((ended, out.is_empty()), (status, status != 0), "{lines:?}: {err}");
        assert!(err.contains(said), "{lines:?}: {err}");
    }
    // Before the scan: a store that it would refuse is not looked at.
    folder.write("v/store.bin", b"");
    assert!(folder.run(SEARCH).2.contains("line 1: "));
    // Recipes that can't be right are the library's to refuse.
    folder.write("v/recipes.bin", &[0xFF; 8]);
    folder.run("scan store.bin --word A -o index.bin");
    folder.refuses("join index.bin v/recipes.bin --names v/names.txt", 14, "not recipes");
}

#[test]
fn messages_are_harmless() {
    let folder = Folder::new("messages");
    fs::write(folder.0.join("\x1b[2Jstore"), b"").unwrap();
    for (line, status) in [
        ("$V check --store $'\\e[2Jstore'", 5),
        ("$V search $'\\e[2Jstore' recipes.bin --word A", 5),
        ("$V check --store $'no\\nsuch\\e\\xff'", 74),
        ("$V $'\\e[2J'", 64),
        ("$V check $'--\\e'", 64),
        ("$V join a b --format $'\\e\\xff'", 64),
        ("$V make-vault -o x --cut $'\\e' store.bin", 64),
        ("$V make-vault -o $'v\\e' store.bin", 0),
        ("$V scan store.bin --word $'\\e' -o $'i\\e'", 0),
        ("$V search store.bin recipes.bin --word $'\\e' -o store.bin", 64),
    ] {
        let (ended, out, err) = folder.shell(line);
        assert_eq!(ended, status, "{line}: {err}");
        harmless(&out);
        harmless(&err);
    }
}
