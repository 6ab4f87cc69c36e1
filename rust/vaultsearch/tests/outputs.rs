//! An output is whole, or as it was before.

mod common;

use common::{recipes, Folder, PROGRAM};
use std::fs::{self, Permissions};
use std::os::unix::fs::{symlink, FileTypeExt, PermissionsExt};
use std::process::{Command, Stdio};
use std::time::{Duration, Instant};

const SEARCH: &str = "$V search store.bin recipes.bin --words words.bin --format plain";
const FOUND: &[u8] = b"finds 3\n0 1 0\n0 3 0\n1 0 1\n";

fn mode(folder: &Folder, name: &str) -> u32 {
    fs::metadata(folder.0.join(name)).unwrap().permissions().mode() & 0o7777
}

/// No file under a temporary name is left.
fn tidy(folder: &Folder) {
    assert!(!folder.entries().iter().any(|name| name.contains(".tmp")), "{:?}", folder.entries());
}

/// A store and recipes with millions of occurrences of A.
fn many(folder: &Folder, places: usize) {
    let mut store = [&b"DV1\n\x01\0\0\0"[..], &[7; 20], &[36, 0, 0, 0, 0xFF, 0xFF, 0, 0]].concat();
    store.resize(36 + 65_535, b'A');
    folder.write("many", &store);
    let mut file = vec![1, 0, 0, 0];
    file.extend_from_slice(&(places as u32).to_le_bytes());
    file.resize(8 + 20 * places, 7);
    folder.write("places", &file);
}

#[test]
fn the_old_files_permissions_are_kept() {
    let folder = Folder::new("mode");
    assert_eq!(folder.shell(&format!("umask 027; {SEARCH} -o out")).0, 0);
    assert_eq!((folder.read("out"), mode(&folder, "out")), (FOUND.to_vec(), 0o640));
    folder.write("out", b"a longer text than the one that replaces it, as an old list may be");
    fs::set_permissions(folder.0.join("out"), Permissions::from_mode(0o604)).unwrap();
    assert_eq!(folder.shell(&format!("{SEARCH} -o out")).0, 0);
    assert_eq!((folder.read("out"), mode(&folder, "out")), (FOUND.to_vec(), 0o604));
    tidy(&folder);
}

#[test]
fn an_old_file_that_may_not_be_written_is_kept() {
    let folder = Folder::new("read-only");
    folder.write("out", b"old");
    fs::set_permissions(folder.0.join("out"), Permissions::from_mode(0o444)).unwrap();
    if fs::OpenOptions::new().write(true).open(folder.0.join("out")).is_ok() {
        return; // root writes what it likes
    }
    folder.fails(&format!("{SEARCH} -o out"), 74, "out: ");
    assert_eq!(folder.read("out"), b"old");
    tidy(&folder);
}

#[test]
fn refusals_and_errors_leave_the_old_file() {
    let folder = Folder::new("old");
    folder.write("out", b"old");
    folder.fails("$V search store.bin words.bin --words words.bin -o out", 14, "words.bin: refused 14");
    many(&folder, 3);
    // A file may have 8 blocks: the disk is full after them.
    let full = "trap '' XFSZ; ulimit -f 8;";
    folder.fails(&format!("{full} $V search many places --word A -o out"), 74, "out: ");
    folder.fails(&format!("{full} $V search many places --word A -o new"), 74, "new: ");
    folder.fails("$V search many places --word A -o /dev/full", 74, "/dev/full: ");
    folder.fails("$V search many places --word A -o no/such/folder", 74, "no/such/folder: ");
    folder.fails("mkdir d; $V search many places --word A -o d", 74, "d: ");
    assert_eq!(folder.read("out"), b"old");
    assert!(!folder.0.join("new").exists());
    tidy(&folder);
}

/// make-vault waits at a pipe without a reader, its store whole but not yet renamed. (INT and HUP may be ignored where tests run.)
#[test]
fn a_process_that_is_killed_leaves_the_old_file() {
    let folder = Folder::new("killed");
    assert_eq!(folder.shell("mkdir v; mkfifo v/recipes.bin; echo old > v/store.bin").0, 0);
    for signal in ["TERM", "KILL"] {
        let words = "make-vault -o v words.bin --quiet".split(' ');
        let mut child = Command::new(PROGRAM).args(words).current_dir(&folder.0).stderr(Stdio::null()).spawn().unwrap();
        let started = Instant::now();
        let waits = || folder.shell("ls -A v").1.lines().count() == 3;
        while !waits() && started.elapsed() < Duration::from_secs(20) {}
        assert_eq!(folder.shell(&format!("kill -{signal} {}", child.id())).0, 0);
        assert_eq!(child.wait().unwrap().code(), None, "{signal}");
        assert_eq!(folder.read("v/store.bin"), b"old\n");
        assert_eq!(folder.shell("rm v/.vaultsearch-*.tmp").0, 0);
    }
}

#[test]
fn a_link_stays_a_link() {
    let folder = Folder::new("links");
    fs::create_dir_all(folder.0.join("sub/deep")).unwrap();
    folder.write("sub/target", b"old");
    symlink("sub/target", folder.0.join("link")).unwrap();
    symlink("sub/deep/next", folder.0.join("dangling")).unwrap();
    symlink("../made", folder.0.join("sub/deep/next")).unwrap();
    symlink("loop", folder.0.join("loop")).unwrap();
    for (link, target) in [("link", "sub/target"), ("dangling", "sub/made"), ("dangling", "sub/made")] {
        assert_eq!(folder.shell(&format!("{SEARCH} -o {link}")).0, 0);
        assert!(folder.0.join(link).symlink_metadata().unwrap().is_symlink());
        assert!(folder.0.join(target).symlink_metadata().unwrap().is_file());
        assert_eq!(folder.read(target), FOUND);
    }
    folder.fails(&format!("{SEARCH} -o loop"), 74, "loop: ");
    tidy(&folder);
}

#[test]
fn devices_and_pipes_are_written_directly() {
    let folder = Folder::new("devices");
    assert_eq!(folder.shell(&format!("{SEARCH} -o /dev/null")).0, 0);
    let piped = format!("mkfifo pipe; cat pipe > got & {SEARCH} -o pipe; ended=$?; wait; exit $ended");
    assert_eq!(folder.shell(&piped).0, 0);
    assert_eq!(folder.read("got"), FOUND);
    assert!(fs::metadata(folder.0.join("pipe")).unwrap().file_type().is_fifo());
    // Standard output by its name: nothing that is there is lost, and a report doesn't mix with it.
    assert_eq!(folder.shell(&format!("(echo before; {SEARCH} -o /dev/stdout; echo after) > got")).0, 0);
    assert_eq!(folder.read("got"), [b"before\n", FOUND, b"after\n"].concat());
    assert_eq!(folder.shell("$V scan store.bin --words words.bin -o index.bin").0, 0);
    let (status, out, err) = folder.shell("$V scan store.bin --words words.bin -o /dev/stdout | cmp - index.bin");
    assert_eq!((status, out.as_str()), (0, ""), "{err}");
    tidy(&folder);
}

#[test]
fn a_vault_is_replaced_by_a_whole_one() {
    let folder = Folder::new("vault");
    fs::create_dir_all(folder.0.join("v/recipes.bin")).unwrap();
    folder.write("in", &recipes(&[&[1, 2]]));
    folder.write("v/store.bin", b"old");
    let old = |folder: &Folder| {
        assert_eq!(folder.read("v/store.bin"), b"old");
        assert_eq!(folder.shell("ls -A v").1, "recipes.bin\nstore.bin\n");
    };
    folder.fails("$V make-vault -o v in", 74, "v/recipes.bin: ");
    old(&folder);
    fs::remove_dir(folder.0.join("v/recipes.bin")).unwrap();
    folder.write("v/recipes.bin", b"old");
    // Two chunks, and a recipe of 4,688 places: longer than 64 blocks.
    folder.write("long", &[b'.'; 300_000]);
    folder.fails("trap '' XFSZ; ulimit -f 64; $V make-vault -o v --cut fixed --size 64 long", 74, "v/recipes.bin: ");
    old(&folder);
    folder.prints(
        "make-vault -o v in",
        "1 files of 48 bytes in 1 chunks of 48 bytes (deduplication 1.00)\nwritten: v/store.bin, v/recipes.bin, v/names.txt\n",
    );
    assert_eq!(folder.shell("ls -A v").1, "names.txt\nrecipes.bin\nstore.bin\n");
    assert_eq!(folder.read("v/names.txt"), b"in\n");
}
