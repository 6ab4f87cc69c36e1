//! Full disks, closed pipes, endless inputs, too little memory: a message and a status, never a panic or a signal.

mod common;

use common::{Folder, PROGRAM};
use std::fs::File;
use std::process::Command;

const SEARCH: &str = "$V search store.bin recipes.bin --words words.bin";

#[test]
fn a_full_standard_output() {
    let folder = Folder::new("full");
    assert_eq!(folder.run("scan store.bin --words words.bin -o index.bin").0, 0);
    let key = "02".repeat(20);
    for line in [
        "$V --help".to_string(),
        SEARCH.to_string(),
        format!("{SEARCH} --count"),
        "$V scan store.bin --words words.bin -o other".to_string(),
        "$V compact store.bin recipes.bin -o other".to_string(),
        "$V check --store store.bin --entries".to_string(),
        format!("$V lookup --store store.bin {key}"),
        format!("$V lookup --index index.bin {key}"),
        "$V make-vault -o v store.bin".to_string(),
    ] {
        folder.fails(&format!("{line} > /dev/full"), 74, "standard output: ");
    }
    folder.fails("$V make-vault -o v store.bin /proc/self/mem > /dev/full", 75, "NOT COMPLETE");
}

#[test]
fn a_closed_pipe() {
    let folder = Folder::new("pipe");
    for words in ["--help", "search store.bin recipes.bin --words words.bin", "check --store store.bin"] {
        let (reader, writer) = std::io::pipe().unwrap();
        drop(reader);
        let output = Command::new(PROGRAM).args(words.split(' ')).current_dir(&folder.0).stdout(writer).output().unwrap();
        let err = String::from_utf8(output.stderr).unwrap();
        assert_eq!(output.status.code(), Some(74), "{words}: {err}");
        assert!(err.contains("vaultsearch: standard output: Broken pipe"), "{words}: {err}");
    }
}

#[test]
fn a_closed_or_full_standard_error() {
    let folder = Folder::new("error");
    for to in ["2> /dev/full", "2>&-"] {
        assert_eq!(folder.shell(&format!("{SEARCH} --count {to}")).0, 0);
        assert_eq!(folder.shell(&format!("$V check --store words.bin {to}")).0, 5);
        assert_eq!(folder.shell(&format!("$V {to}")).0, 64);
        assert_eq!(folder.shell(&format!("$V make-vault -o v store.bin /proc/self/mem {to}")).0, 75);
    }
}

/// A sparse file of that length.
fn sparse(folder: &Folder, name: &str, length: u64) {
    File::create(folder.0.join(name)).unwrap().set_len(length).unwrap();
}

#[test]
fn lengths_are_tested_before_reading() {
    let folder = Folder::new("lengths");
    assert_eq!(folder.run("scan store.bin --words words.bin -o index.bin").0, 0);
    // Little memory: nothing of these lengths is read.
    let little = "ulimit -v 300000;";
    for (length, line) in [
        (531, "$V search store.bin recipes.bin --words long"),
        ((1 << 20) + 1, "$V search store.bin recipes.bin --list long"),
        ((1 << 30) + 1, "$V search store.bin recipes.bin --words words.bin --names long"),
        (8_589_934_591, "$V join long recipes.bin"),
        (8_589_934_591, "$V check --index long"),
    ] {
        sparse(&folder, "long", length);
        folder.fails(&format!("{little} {line}"), 74, &format!("long: longer than {} bytes", length - 1));
    }
    sparse(&folder, "long", 4_294_967_296);
    folder.fails(&format!("{little} $V make-vault -o v store.bin long"), 75, "NOT COMPLETE");
}

#[test]
fn garbage_is_refused_by_its_first_bytes() {
    let folder = Folder::new("garbage");
    assert_eq!(folder.run("scan store.bin --words words.bin -o index.bin").0, 0);
    sparse(&folder, "zeros", 4_000_000_000);
    let little = "ulimit -v 300000;";
    folder.fails(&format!("{little} $V check --store zeros"), 5, "not a store");
    folder.fails(&format!("{little} $V check --index zeros"), 10, "not an index");
    folder.fails(&format!("{little} $V join index.bin zeros"), 14, "not recipes");
    // The same answers from a pipe.
    folder.fails("head -c 99999 /dev/zero | $V check --store /dev/stdin", 5, "not a store");
    folder.fails("head -c 99999 /dev/zero | $V join index.bin /dev/stdin", 14, "not recipes");
    assert_eq!(
        folder.shell("cat store.bin | $V check --store /dev/stdin --quiet").1,
        "/dev/stdin: good, 3 chunks, 8 bytes in them, 0 bytes in holes\n"
    );
}

#[test]
fn endless_inputs() {
    let folder = Folder::new("endless");
    assert_eq!(folder.run("scan store.bin --words words.bin -o index.bin").0, 0);
    folder.write("names.txt", b"a\nb\nc\n");
    let stream = "longer than 4294967295 bytes, the most that is read of a device or a pipe";
    let list = "longer than 1048576 bytes, the most that a text list of keywords may have";
    let words = "longer than 530 bytes, the most that a binary keyword list may have";
    for (line, said) in [
        ("$V search store.bin recipes.bin --words /dev/zero", words),
        ("$V search store.bin recipes.bin --list /dev/zero", list),
        ("$V search /dev/zero recipes.bin --words words.bin", stream),
        ("$V join /dev/zero recipes.bin", stream),
        ("$V join index.bin /dev/zero", stream),
        ("$V compact store.bin /dev/zero -o out", stream),
        ("yes | $V search store.bin recipes.bin --words /dev/stdin", words),
        ("yes | $V search store.bin recipes.bin --list /dev/stdin", list),
        ("yes | $V search /dev/stdin recipes.bin --words words.bin", stream),
    ] {
        folder.fails(&format!("ulimit -v 300000; {line}"), 74, said);
    }
    // An endless store with the mark of one: memory ends first.
    let endless = "(head -c 8 store.bin; cat /dev/zero)";
    folder.fails(&format!("ulimit -v 300000; {endless} | $V check --store /dev/stdin"), 74, "no memory for ");
}

#[test]
fn memory_that_cannot_be_had() {
    let folder = Folder::new("memory");
    assert_eq!(folder.run("scan store.bin --words words.bin -o index.bin").0, 0);
    // As far as their first bytes say: a store that ends beyond every chunk's greatest end, a store and an index of a gigabyte.
    for (name, option, length) in
        [("store.bin", "--store", 1 << 33), ("store.bin", "--store", 1 << 30), ("index.bin", "--index", 1 << 30)]
    {
        lengthen(&folder, name, length);
        folder.fails(&format!("ulimit -v 300000; $V check {option} {name}"), 74, &format!("no memory for {length} bytes"));
    }
    let mut recipes = File::options().write(true).open(folder.0.join("recipes.bin")).unwrap();
    std::io::Write::write_all(&mut recipes, &[1, 0, 0, 0, 255, 255, 255, 255]).unwrap();
    recipes.set_len(1 << 30).unwrap();
    folder.fails("ulimit -v 300000; $V join words.bin recipes.bin", 74, "recipes.bin: no memory for ");
    // A file of a vault.
    folder.fails("ulimit -v 300000; $V make-vault -o v store.bin", 74, "no memory for ");
}

/// A file with zeros behind it, up to that length.
fn lengthen(folder: &Folder, name: &str, length: u64) {
    File::options().write(true).open(folder.0.join(name)).unwrap().set_len(length).unwrap();
}

/// The small vault with a hole of gigabytes behind it, which are read: `make huge` runs it.
#[test]
#[ignore = "wants 4.3 GB of memory"]
fn a_store_longer_than_32_bits() {
    let folder = Folder::new("longer");
    lengthen(&folder, "store.bin", 4_294_967_297);
    folder.prints("check --store store.bin", "store.bin: good, 3 chunks, 8 bytes in them, 4294967197 bytes in holes\n");
    folder.prints("search store.bin recipes.bin --words words.bin --format plain", "finds 3\n0 1 0\n0 3 0\n1 0 1\n");
    folder.prints(&format!("lookup --store store.bin {}", "02".repeat(20)), "chunk of 4 bytes at 95\nABAX\n");
    folder.prints("compact store.bin recipes.bin -o new.bin", "new.bin: 100 bytes for a store of 4294 MB, 3 of 3 chunks\n");
    folder.prints("search new.bin recipes.bin --words words.bin --format plain", "finds 3\n0 1 0\n0 3 0\n1 0 1\n");
    let (status, out, err) = folder.shell("cat store.bin | $V check --store /dev/stdin");
    assert_eq!((status, out.as_str()), (74, ""), "{err}");
    assert!(err.contains("longer than 4294967295 bytes, the most that is read of a device or a pipe"), "{err}");
}

/// The list of 60,000 times 65,535 x 16 occurrences, and more.
#[test]
fn a_list_that_no_memory_holds() {
    let folder = Folder::new("list");
    let mut store = [&b"DV1\n\x01\0\0\0"[..], &[7; 20], &[36, 0, 0, 0, 0xFF, 0xFF, 0, 0]].concat();
    store.resize(36 + 65_535, b'A');
    folder.write("store.bin", &store);
    folder.write("recipes.bin", &[&[1, 0, 0, 0, 0x60, 0xEA, 0, 0][..], &[7; 20 * 60_000]].concat());
    folder.write("list.txt", (1..=16).map(|n| "A".repeat(n) + "\n").collect::<String>().as_bytes());
    assert_eq!(folder.run("scan store.bin --list list.txt -o index.bin").0, 0);
    folder.fails("ulimit -v 4000000; $V join index.bin recipes.bin", 74, "the list: no memory for ");
    // 16 keywords, at all starts of a file of 65,535 x 60,000 bytes.
    let count = 16 * 65_535u64 * 60_000 - 120;
    folder.prints("join index.bin recipes.bin --count", &format!("{count}\n"));
}

/// 6.5 MB of A, of which 16 keywords make an index of 315 MB. The stand-in makes an index before it asks for room.
#[test]
#[cfg_attr(feature = "mock", ignore)]
fn an_index_that_no_memory_holds() {
    let folder = Folder::new("index");
    let count = 100u32;
    let mut store = [&b"DV1\n"[..], &count.to_le_bytes()].concat();
    for k in 0..count {
        let key: Vec<u8> = k.to_le_bytes().repeat(5);
        store.extend([&key[..], &(8 + 28 * count + 65_535 * k).to_le_bytes(), &65_535u32.to_le_bytes()].concat());
    }
    store.resize(store.len() + 65_535 * count as usize, b'A');
    folder.write("store.bin", &store);
    folder.write("list.txt", (1..=16).map(|n| "A".repeat(n) + "\n").collect::<String>().as_bytes());
    assert_eq!(folder.shell("ulimit -v 220000; $V check --store store.bin").0, 0);
    folder.fails("ulimit -v 220000; $V scan store.bin --list list.txt -o index.bin", 74, "the index: no memory for ");
    assert!(!folder.0.join("index.bin").exists());
}

/// 146 of the longest chunks, all of them named. The stand-in makes the new store before it asks for room.
#[test]
#[cfg_attr(feature = "mock", ignore)]
fn a_new_store_that_no_memory_holds() {
    let folder = Folder::new("new-store");
    let (count, size) = (146u32, 1_048_576u32);
    let mut store = [&b"DV1\n"[..], &count.to_le_bytes()].concat();
    let mut recipes = [1, count].map(u32::to_le_bytes).concat();
    for k in 0..count {
        let key: Vec<u8> = k.to_le_bytes().repeat(5);
        store.extend([&key[..], &(8 + 28 * count + size * k).to_le_bytes(), &size.to_le_bytes()].concat());
        recipes.extend(key);
    }
    store.resize(store.len() + (size * count) as usize, b'.');
    folder.write("store.bin", &store);
    folder.write("recipes.bin", &recipes);
    folder.write("out", b"old");
    let message = format!("the new store: no memory for {} bytes", store.len());
    folder.fails("ulimit -v 400000; $V compact store.bin recipes.bin -o out", 74, &message);
    assert_eq!(folder.read("out"), b"old");
    folder.prints("compact store.bin recipes.bin -o out", "out: 153 MB for a store of 153 MB, 146 of 146 chunks\n");
    assert!(folder.read("out") == store);
}

#[test]
fn a_thread_that_cannot_be_had() {
    let folder = Folder::new("thread");
    folder.fails("ulimit -v 40000; $V check --store store.bin", 74, "no thread with a stack of ");
}
