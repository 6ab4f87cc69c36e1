//! No command writes over a file that it reads, whatever path names it.

mod common;

use common::Folder;
use std::fs;
use std::os::unix::fs::symlink;

/// A folder with an index, a text list, names, and links to the store.
fn folder(name: &str) -> Folder {
    let folder = Folder::new(name);
    assert_eq!(folder.run("scan store.bin --words words.bin -o index.bin").0, 0);
    folder.write("list.txt", b"ABA\nAA\n");
    folder.write("names.txt", b"a\nb\nc\n");
    fs::create_dir(folder.0.join("sub")).unwrap();
    symlink("store.bin", folder.0.join("link")).unwrap();
    symlink("../link", folder.0.join("sub/link")).unwrap();
    fs::hard_link(folder.0.join("store.bin"), folder.0.join("hard")).unwrap();
    folder
}

/// A usage error that leaves each file of the folder as it was, and no other.
fn kept(folder: &Folder, line: &str) {
    let all = || folder.entries().into_iter().filter(|name| name != "sub" && name != "in");
    let before: Vec<(String, Vec<u8>)> = all().map(|name| (name.clone(), folder.read(&name))).collect();
    folder.fails(line, 64, "is the input ");
    let after: Vec<(String, Vec<u8>)> = all().map(|name| (name.clone(), folder.read(&name))).collect();
    assert!(before == after, "{line}");
}

#[test]
fn scan_keeps_its_inputs() {
    let folder = folder("keep-scan");
    let absolute = folder.0.join("store.bin");
    for output in ["store.bin", "./store.bin", "sub/../store.bin", "link", "sub/link", "hard", absolute.to_str().unwrap()] {
        kept(&folder, &format!("$V scan store.bin --words words.bin -o {output}"));
    }
    kept(&folder, "$V scan link --words words.bin -o hard");
    kept(&folder, "$V scan store.bin --words words.bin -o words.bin");
    kept(&folder, "$V scan store.bin --list list.txt -o list.txt");
}

#[test]
fn search_and_join_keep_their_inputs() {
    let folder = folder("keep-join");
    for output in ["store.bin", "hard", "recipes.bin", "words.bin", "names.txt"] {
        kept(&folder, &format!("$V search store.bin recipes.bin --words words.bin --names names.txt -o {output}"));
    }
    kept(&folder, "$V search store.bin recipes.bin --list list.txt --count -o list.txt");
    for output in ["index.bin", "recipes.bin", "names.txt"] {
        kept(&folder, &format!("$V join index.bin recipes.bin --names names.txt -o {output}"));
    }
}

#[test]
fn compact_keeps_its_inputs() {
    let folder = folder("keep-compact");
    let absolute = folder.0.join("store.bin");
    fs::hard_link(folder.0.join("recipes.bin"), folder.0.join("hard-recipes")).unwrap();
    symlink("hard-recipes", folder.0.join("link-recipes")).unwrap();
    let stores = ["store.bin", "./store.bin", "sub/../store.bin", "link", "sub/link", "hard", absolute.to_str().unwrap()];
    for output in stores.into_iter().chain(["recipes.bin", "hard-recipes", "link-recipes", "sub/../link-recipes"]) {
        kept(&folder, &format!("$V compact store.bin recipes.bin -o {output}"));
    }
    kept(&folder, "$V compact link hard-recipes -o hard");
    kept(&folder, "$V compact store.bin recipes.bin -o new >> store.bin");
    kept(&folder, "$V compact store.bin recipes.bin -o /dev/stdout >> recipes.bin");
}

#[test]
fn lookup_keeps_its_inputs() {
    let folder = folder("keep-lookup");
    let key = "02".repeat(20);
    kept(&folder, &format!("$V lookup --store store.bin {key} -o hard"));
    kept(&folder, &format!("$V lookup --index index.bin {key} -o index.bin"));
}

#[test]
fn make_vault_keeps_what_it_collects() {
    let folder = folder("keep-make");
    fs::create_dir(folder.0.join("in")).unwrap();
    folder.write("in/a", b"some data");
    kept(&folder, "$V make-vault -o . store.bin");
    kept(&folder, "$V make-vault -o . in link");
    kept(&folder, "$V make-vault -o . in hard");
    kept(&folder, "$V make-vault -o . .");
    kept(&folder, "$V make-vault -o . --words words.bin in");
    kept(&folder, "$V make-vault -o . --word A words.bin");
    fs::hard_link(folder.0.join("names.txt"), folder.0.join("in/hard")).unwrap();
    kept(&folder, "$V make-vault -o . in");
}

#[test]
fn standard_output_is_no_input_either() {
    let folder = folder("keep-standard");
    kept(&folder, "$V search store.bin recipes.bin --words words.bin >> store.bin");
    kept(&folder, "$V check --store store.bin >> hard");
    kept(&folder, "$V scan store.bin --words words.bin -o other >> words.bin");
    kept(&folder, "$V scan store.bin --words words.bin -o /dev/stdout >> store.bin");
    // What keeps no data may be both.
    assert_eq!(folder.shell("$V check --list /dev/null --store store.bin > /dev/null").0, 2);
}
