//! What make-vault takes, skips and leaves out.

mod common;

use common::Folder;
use std::fs;
use std::os::unix::fs::symlink;

/// A regular file whose reading fails, for root too.
const UNREADABLE: &str = "/proc/self/mem";

fn folder(name: &str) -> Folder {
    let folder = Folder::new(name);
    fs::create_dir_all(folder.0.join("in/sub")).unwrap();
    folder.write("in/a", b"one");
    folder.write("in/sub/b", b"two");
    folder
}

#[test]
fn links_are_followed_where_they_are_named() {
    let folder = folder("follow");
    symlink("in/sub", folder.0.join("folder")).unwrap();
    symlink("in/a", folder.0.join("file")).unwrap();
    let (status, out, err) = folder.run("make-vault -o v folder file");
    assert!(status == 0 && out.starts_with("2 files of 6 bytes in 2 chunks"), "{out}{err}");
    assert_eq!(folder.read("v/names.txt"), b"folder/b\nfile\n");
}

#[test]
fn links_and_special_files_inside_are_skipped_and_named() {
    let folder = folder("skip");
    symlink("a", folder.0.join("in/link")).unwrap();
    symlink("..", folder.0.join("in/sub/up")).unwrap();
    assert_eq!(folder.shell("mkfifo in/pipe").0, 0);
    let (status, _, err) = folder.run("make-vault -o v --quiet in");
    assert_eq!(status, 0, "{err}");
    for said in [
        "skipped: in/link: a link\n",
        "skipped: in/sub/up: a link\n",
        "skipped: in/pipe: a special file\n",
        "skipped 2 links and 1 special file inside folders\n",
    ] {
        assert!(err.contains(said), "{err}");
    }
    assert_eq!(folder.read("v/names.txt"), b"in/a\nin/sub/b\n");
}

#[test]
fn what_cannot_be_read_is_left_out_and_told() {
    let folder = folder("unreadable");
    assert_eq!(folder.shell("mkfifo pipe").0, 0);
    let (status, out, err) = folder.run(&format!("make-vault -o v in/a {UNREADABLE} pipe in/sub"));
    assert_eq!(status, 75, "{err}");
    assert!(out.starts_with("2 files of 6 bytes"), "{out}");
    assert!(err.contains(&format!("left out: {UNREADABLE}: ")), "{err}");
    assert!(err.contains("left out: pipe: neither a file nor a folder\n"), "{err}");
    assert!(err.ends_with("vaultsearch: the vault is NOT COMPLETE: 2 files or folders could not be read, see above\n"), "{err}");
    assert_eq!(folder.read("v/names.txt"), b"in/a\nin/sub/b\n");
    folder.prints(
        "search v/store.bin v/recipes.bin --word two --names v/names.txt --format tsv",
        "file\toffset\tkeyword\ttext\tname\n1\t0\t0\ttwo\tin/sub/b\n",
    );
}

#[test]
fn a_vault_of_nothing_replaces_none() {
    let folder = folder("nothing");
    assert_eq!(folder.run("make-vault -o v in").0, 0);
    let old = folder.read("v/store.bin");
    folder.fails(&format!("$V make-vault -o v {UNREADABLE}"), 74, "no vault is written");
    folder.fails("$V make-vault -o v in no-such", 74, "no-such: ");
    assert_eq!(folder.read("v/store.bin"), old);
    assert_eq!(folder.read("v/names.txt"), b"in/a\nin/sub/b\n");
}
