//! Giving back the holes: `compact`, and the searches of what it wrote.

mod common;

use common::{recipes, store, Folder};
use std::fs;

const LINE: &str = "compact old.bin recipes.bin -o new.bin";

/// The small vault with its chunks in a store with holes, in which keywords lie, and one more chunk that nobody names.
fn folder(name: &str) -> Folder {
    let folder = Folder::new(name);
    folder.write("old.bin", &store(&[(1, b"ABA", b"XAB"), (2, b"A", b"ABAX"), (9, b"", b"unnamed"), (3, b"ABAAB", b"A")], b"AA"));
    folder
}

#[test]
fn holes_and_unnamed_chunks_go() {
    let folder = folder("compact");
    folder.prints(LINE, "new.bin: 100 bytes for a store of 146 bytes, 3 of 4 chunks\n");
    assert_eq!(folder.read("new.bin"), folder.read("store.bin"));
    folder.prints("check --store new.bin", "new.bin: good, 3 chunks, 8 bytes in them, 0 bytes in holes\n");
    // Once more it is the same.
    folder.prints("compact new.bin recipes.bin -o again.bin", "again.bin: 100 bytes for a store of 100 bytes, 3 of 3 chunks\n");
    assert_eq!(folder.read("again.bin"), folder.read("new.bin"));
    folder.refuses(&format!("lookup --store new.bin {}", "09".repeat(20)), 15, "not there");
}

/// In the order of the directory and once each, whatever the order and the number in the recipes.
#[test]
fn the_order_is_the_old_one() {
    let folder = folder("compact-order");
    folder.write("recipes.bin", &recipes(&[&[3, 3], &[], &[9, 1, 3], &[9]]));
    folder.prints(LINE, "new.bin: 103 bytes for a store of 146 bytes, 3 of 4 chunks\n");
    assert_eq!(folder.read("new.bin"), store(&[(1, b"", b"XAB"), (9, b"", b"unnamed"), (3, b"", b"A")], b""));
}

#[test]
fn nothing_named() {
    let folder = folder("compact-nothing");
    for files in [&[][..], &[&[][..], &[]]] {
        folder.write("recipes.bin", &recipes(files));
        folder.prints(LINE, "new.bin: 8 bytes for a store of 146 bytes, 0 of 4 chunks\n");
        assert_eq!(folder.read("new.bin"), b"DV1\n\0\0\0\0");
    }
    folder.write("old.bin", b"DV1\n\0\0\0\0a hole");
    folder.prints(LINE, "new.bin: 8 bytes for a store of 14 bytes, 0 of 0 chunks\n");
}

/// Search, and scan and join, on both stores: the list, or the refusal of recipes that are compacted for all the same.
#[test]
fn a_search_lists_the_same() {
    let folder = folder("compact-search");
    for (files, status) in [(&[&[1, 2][..], &[3, 3], &[]][..], 0), (&[&[2, 1, 2, 3], &[9, 2]], 0), (&[&[2], &[1, 3, 2]], 0)] {
        folder.write("recipes.bin", &recipes(files));
        assert_eq!(folder.run(LINE).0, 0);
        let of = |store: &str| {
            let search = folder.run(&format!("search {store} recipes.bin --words words.bin --format plain"));
            assert_eq!(folder.run(&format!("scan {store} --words words.bin -o index.bin")).0, 0);
            (search, folder.run("join index.bin recipes.bin --format plain"))
        };
        let (old, new) = (of("old.bin"), of("new.bin"));
        assert_eq!(old, new);
        assert_eq!((old.0 .0, old.1 .0), (status, status));
        assert_eq!(old.0 .1, old.1 .1);
        assert!(status != 0 || !old.0 .1.starts_with("finds 0"), "{}", old.0 .1);
    }
}

/// A file of 4,096 of the longest chunks has a byte too many to be searched (16), and is compacted for.
#[test]
fn a_file_that_is_too_long_to_be_searched() {
    let folder = folder("compact-long");
    let chunk = vec![b'.'; 1_048_576];
    folder.write("old.bin", &store(&[(8, b"", b"x"), (7, b"hole", &chunk)], b""));
    folder.write("recipes.bin", &[&[1, 0, 0, 0, 0, 0x10, 0, 0][..], &[7; 20 * 4_096]].concat());
    folder.prints(LINE, "new.bin: 1048 KB for a store of 1048 KB, 1 of 2 chunks\n");
    assert_eq!(folder.read("new.bin"), store(&[(7, b"", &chunk)], b""));
    for store in ["old.bin", "new.bin"] {
        folder.refuses(&format!("search {store} recipes.bin --word A"), 16, "4,294,967,295");
    }
}

/// Each number names the file that it is about, leaves an old output as it was, and no temporary file.
#[test]
fn refusals() {
    let folder = folder("compact-refusals");
    let good = folder.read("store.bin");
    folder.write("out", b"old");
    let refused = |line: &str, code: i32, file: &str| {
        let before = folder.entries();
        folder.refuses(&format!("{line} -o out"), code, &format!("{file}: refused {code}: "));
        folder.refuses(&format!("{line} -o none"), code, &format!("{file}: refused {code}: "));
        assert_eq!((folder.read("out"), folder.entries()), (b"old".to_vec(), before), "{line}");
    };
    let end = [&good[..84], &[0xFF; 4], &good[88..]].concat();
    let twins = [&good[..36], &[1; 20], &good[56..]].concat();
    folder.write("short", &[1, 0, 0]);
    for (code, bytes) in
        [(5, b"DV2\n\0\0\0\0".to_vec()), (6, good[..91].to_vec()), (7, good[..99].to_vec()), (8, twins), (20, end)]
    {
        folder.write("bad", &bytes);
        refused("compact bad recipes.bin", code, "bad");
        // The store's numbers come first.
        refused("compact bad short", code, "bad");
    }
    refused("compact old.bin short", 14, "short");
    refused("compact old.bin words.bin", 14, "words.bin");
    folder.write("absent", &recipes(&[&[1, 2], &[3, 4]]));
    refused("compact old.bin absent", 15, "absent");
    folder.fails("$V compact nothing recipes.bin -o out", 74, "nothing: ");
    folder.fails("$V compact old.bin nothing -o out", 74, "nothing: ");
    assert_eq!(folder.read("out"), b"old");
}

/// The new store is written under another name and renamed: a disk that is full leaves the old one.
#[test]
fn a_full_disk_leaves_the_old_file() {
    let folder = folder("compact-full");
    folder.write("old.bin", &store(&[(1, b"", &vec![b'x'; 900_000])], b"hole"));
    folder.write("recipes.bin", &recipes(&[&[1]]));
    folder.write("new.bin", b"old");
    let before = folder.entries();
    folder.fails(&format!("trap '' XFSZ; ulimit -f 8; $V {LINE}"), 74, "new.bin: ");
    assert_eq!((folder.read("new.bin"), folder.entries()), (b"old".to_vec(), before.clone()));
    folder.prints(LINE, "new.bin: 900 KB for a store of 900 KB, 1 of 1 chunks\n");
    assert_eq!((folder.read("new.bin").len(), folder.entries()), (900_036, before));
}

/// On standard output the store alone; the report goes to standard error.
#[test]
fn to_standard_output() {
    let folder = folder("compact-standard");
    let (status, out, err) = folder.shell("$V compact old.bin recipes.bin -o /dev/stdout | cmp - store.bin");
    assert_eq!((status, out.as_str()), (0, ""), "{err}");
    assert!(err.ends_with("/dev/stdout: 100 bytes for a store of 146 bytes, 3 of 4 chunks\n"), "{err}");
}

/// A vault of plain files, of which one is taken out: only its own chunks go, and the rest is found as before.
#[test]
fn a_file_taken_out_of_a_vault() {
    let folder = folder("compact-vault");
    fs::create_dir(folder.0.join("in")).unwrap();
    let text = |seed: usize| (0..5_000).map(|k| b"lorem ipsum dolor sit"[(k * k / 7 + k * seed) % 21]).collect::<Vec<u8>>();
    folder.write("in/a", &[text(1), b"the keyword".to_vec(), text(2)].concat());
    folder.write("in/b", &[text(3), b"the keyword".to_vec(), text(4)].concat());
    assert_eq!(folder.run("make-vault -o v --cut fixed --size 64 in").0, 0);
    let all = folder.read("v/recipes.bin");
    let first = 4 + 20 * u32::from_le_bytes([all[4], all[5], all[6], all[7]]) as usize;
    folder.write("a.bin", &[&[1, 0, 0, 0][..], &all[4..4 + first]].concat());
    let (status, out, err) = folder.run("compact v/store.bin a.bin -o new.bin");
    assert!(status == 0 && folder.read("new.bin").len() < folder.read("v/store.bin").len(), "{out}{err}");
    let of = |store: &str| folder.run(&format!("search {store} a.bin --word keyword --word m --format plain"));
    assert_eq!(of("new.bin"), of("v/store.bin"));
    assert!(of("new.bin").1.lines().count() > 2);
    // The other file's recipe has no chunks there any more.
    folder.refuses("search new.bin v/recipes.bin --word keyword", 15, "not there");
}

#[test]
fn the_help_warns_of_chunks_that_are_not_named() {
    let (_, help, _) = Folder::new("compact-help").run("--help");
    let words = help.split_whitespace().collect::<Vec<_>>().join(" ");
    for said in [
        "compact STORE RECIPES -o STORE",
        "Chunks that these recipes don't name are gone from the new store: give all recipes of the store as one file",
        "Recipes that a join refuses with 16 or 17 are compacted for.",
    ] {
        assert!(words.contains(said), "{said}");
    }
}
