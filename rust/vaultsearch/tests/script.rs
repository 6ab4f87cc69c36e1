//! The script ./search of the repository's root, with stubs for the program and for `rt`.

mod common;

use common::Folder;
use std::fs;

const SCRIPT: &str = concat!(env!("CARGO_MANIFEST_DIR"), "/../../search");

/// A file that bash runs. Another process writes it: what this one has open for writing while it forks can't be run.
fn executable(folder: &Folder, name: &str, text: &str) {
    let made = folder.shell(&format!("cat > {name} << 'END'\n#!/usr/bin/env bash\n{text}\nEND\nchmod +x {name}"));
    assert_eq!(made.0, 0, "{}", made.2);
}

#[test]
fn the_first_line_is_the_status() {
    let folder = Folder::new("status");
    fs::create_dir(folder.0.join("data")).unwrap();
    let run = format!("VAULT_SEARCH=$PWD/program {SCRIPT} data");
    for (printed, ended, status) in [
        ("finds 3\\n0 1 0\\n0 3 0\\n1 0 1\\n", 0, 0),
        ("finds 0\\n", 0, 0),
        ("refused 17\\n", 0, 1),
        ("too long store.bin\\n", 0, 2),
        ("finds 1\\n0 0 0\\n\\n\\n", 0, 0),
        ("", 0, 2),
        ("found 3\\n", 0, 2),
        ("finds 3\\n", 1, 2),
    ] {
        executable(&folder, "program", &format!("printf '{printed}'; exit {ended}"));
        let (got, out, err) = folder.shell(&run);
        assert_eq!(got, status, "{printed}: {err}");
        assert_eq!(out, if ended == 0 { printed.replace("\\n", "\n") } else { String::new() });
        assert_eq!(err.is_empty(), out.starts_with("finds") || out.starts_with("refused") || out.starts_with("too"), "{err}");
    }
    executable(&folder, "program", "pwd");
    assert!(folder.shell(&run).1.ends_with("/data\n"), "the program runs in the folder");
}

#[test]
fn folders_programs_and_outputs_that_cannot_be_used() {
    let folder = Folder::new("unusable");
    executable(&folder, "program", "echo finds 0");
    for line in [
        format!("VAULT_SEARCH=$PWD/program {SCRIPT}"),
        format!("VAULT_SEARCH=$PWD/program {SCRIPT} no-such"),
        format!("VAULT_SEARCH=$PWD/program {SCRIPT} program"),
        format!("VAULT_SEARCH=$PWD/no-such {SCRIPT} ."),
        format!("VAULT_SEARCH=$PWD/store.bin {SCRIPT} ."),
        format!("VAULT_SEARCH=$PWD/program {SCRIPT} . > /dev/full"),
    ] {
        let (status, out, err) = folder.shell(&line);
        assert_eq!((status, out.as_str()), (2, ""), "{line}");
        assert!(err.contains("search: "), "{line}: {err}");
    }
}

#[test]
fn the_checkers_output_is_shown_where_it_fails() {
    let folder = Folder::new("checker");
    for name in ["data", "crates/vault_search", "bin"] {
        fs::create_dir_all(folder.0.join(name)).unwrap();
    }
    assert_eq!(folder.shell(&format!("cp {SCRIPT} search")).0, 0);
    let run = "PATH=$PWD/bin:$PATH ./search data";
    executable(&folder, "bin/rt", "echo checking; echo a proof fails >&2; exit 1");
    let (status, out, err) = folder.shell(run);
    assert_eq!((status, out.as_str()), (2, ""));
    assert!(err.contains("checking\na proof fails\n"), "{err}");
    let program = "mkdir -p out; printf '#!/bin/sh\\necho finds 0\\n' > out/vault_search";
    executable(&folder, "bin/rt", &format!("echo checking; {program}; chmod +x out/vault_search"));
    let (status, out, err) = folder.shell(run);
    assert_eq!((status, out.as_str()), (0, "finds 0\n"), "{err}");
    assert!(!err.contains("checking"), "{err}");
    assert_eq!(folder.read("target/search.log"), b"checking\n");
    // It is built once.
    executable(&folder, "bin/rt", "exit 1");
    assert_eq!(folder.shell(run).0, 0);
}
