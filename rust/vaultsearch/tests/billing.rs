//! Clients and their counts: `--client` and `--tally` with `search` and `join`, in each format, with what is refused.

mod common;

use common::{recipes, Folder};
use std::fs::{self, Permissions};
use std::os::unix::fs::{symlink, PermissionsExt};

const SEARCH: &str = "search store.bin recipes.bin --words words.bin";
const JOIN: &str = "join index.bin recipes.bin";
const FOUND: &str = "finds 3\n0 1 0\n0 3 0\n1 0 1\n";

/// The small vault: ABA occurs twice and AA once; and its index.
fn folder(name: &str) -> Folder {
    let folder = Folder::new(name);
    assert_eq!(folder.run("scan store.bin --words words.bin -o index.bin").0, 0);
    folder
}

fn tally(folder: &Folder) -> String {
    String::from_utf8(folder.read("tally")).unwrap()
}

/// No file under a temporary name is left.
fn tidy(folder: &Folder) {
    assert!(!folder.entries().iter().any(|name| name.contains(".tmp")), "{:?}", folder.entries());
}

#[test]
fn formats() {
    let folder = folder("bill-formats");
    let clients = "--client smith=ABA --client jones=AA";
    for command in [SEARCH, JOIN] {
        folder.prints(&format!("{command} --format plain {clients}"), &format!("{FOUND}clients 2\n0 2 2\n1 1 1\n"));
        folder.prints(
            &format!("{command} {clients}"),
            "file 0\n           1  ABA\n           3  ABA\nfile 1\n           0  AA\n3 occurrences in 2 of 3 files\n\
             client smith: 2 occurrences\nclient jones: 1 occurrence\n",
        );
        folder.prints(
            &format!("{command} --format tsv {clients}"),
            "file\toffset\tkeyword\ttext\tname\n0\t1\t0\tABA\t\n0\t3\t0\tABA\t\n1\t0\t1\tAA\t\n\n\
             client\tfound\ttotal\tname\n0\t2\t2\tsmith\n1\t1\t1\tjones\n",
        );
        let (_, lines, _) = folder.run(&format!("{command} --format jsonl {clients}"));
        let bill = "{\"client\":0,\"found\":2,\"total\":2,\"name\":\"smith\"}\n{\"client\":1,\"found\":1,\"total\":1,\"name\":\"jones\"}\n";
        assert!(lines.lines().count() == 5 && lines.ends_with(bill), "{lines}");
        folder.prints(&format!("{command} --format plain -o out {clients}"), "");
        assert_eq!(folder.read("out"), format!("{FOUND}clients 2\n0 2 2\n1 1 1\n").as_bytes());
        // The raw list has no place for counts, the tally has.
        folder.prints(&format!("{command} --format raw -o raw {clients} --tally tally"), "");
        assert_eq!((folder.read("raw").len(), tally(&folder)), (27, "2 smith\n1 jones\n0\n0\n".into()));
        fs::remove_file(folder.0.join("tally")).unwrap();
    }
    // Without clients nothing is printed but the list.
    folder.prints(&format!("{SEARCH} --format plain"), FOUND);
    folder.prints(&format!("{JOIN} --format plain"), FOUND);
}

/// Keywords by their text, under the fold flag; a name alone has all that are left.
#[test]
fn whose_keywords() {
    let folder = folder("bill-keywords");
    for (clients, bill) in [
        ("--client a", "clients 1\n0 3 3\n"),
        ("--client a=ABA --client a=AA", "clients 1\n0 3 3\n"),
        ("--client a=AA --client b", "clients 2\n0 1 1\n1 2 2\n"),
        ("--client b --client a=AA", "clients 2\n0 2 2\n1 1 1\n"),
        ("--client a=AA --client b=ABA --client c", "clients 3\n0 1 1\n1 2 2\n2 0 0\n"),
    ] {
        folder.prints(&format!("{SEARCH} --format plain {clients}"), &format!("{FOUND}{bill}"));
        folder.prints(&format!("{JOIN} --format plain {clients}"), &format!("{FOUND}{bill}"));
    }
    folder.prints(
        "search store.bin recipes.bin --fold --word aba --word aa --format plain --client a=Aba --client b=AA",
        &format!("{FOUND}clients 2\n0 2 2\n1 1 1\n"),
    );
    // A keyword with an equals sign, a comma and a space; a name with one.
    let line = "$V search store.bin recipes.bin --word 'a=b, c' --word A --client 'Smith & Sons=a=b, c' --client 'J. J.=A'";
    let (status, out, err) = folder.shell(line);
    assert!(status == 0 && out.ends_with("client Smith & Sons: 0 occurrences\nclient J. J.: 5 occurrences\n"), "{out}{err}");
    for (clients, said) in [
        ("--client a=ABA", "AA has no client: give --client NAME=AA, or --client NAME for all that are left"),
        ("--client a=B --client b", "--client a=B: no keyword of "),
        ("--client a=aba --client b", "--client a=aba: no keyword of "),
        ("--client a=AA --client b=AA --client c", "--client b=AA: this keyword has a client already"),
        ("--client a --client b", "--client b: a second client of all keywords that are left"),
        ("--client a=AA --client b --client c=ABA --client d=A --client e=X", "--client d=A: no keyword of "),
        ("--client =AA", "--client wants NAME=TEXT or NAME, not =AA"),
        ("--client ''", "--client wants NAME=TEXT or NAME"),
        ("--client", "--client wants a value behind it"),
        ("--tally tally", "--tally is for the clients' counts"),
        ("--client a --tally tally --tally tally", "--tally is given twice"),
        ("--client a --count", "--count makes no list, and so no bill"),
        ("--client a --format raw", "the format raw has no place for the clients' counts"),
    ] {
        folder.fails(&format!("$V {SEARCH} {clients}"), 64, said);
        folder.fails(&format!("$V {JOIN} {clients}"), 64, said);
    }
    assert!(!folder.0.join("tally").exists());
    for command in
        ["scan store.bin --word A -o i", "query index.bin recipes.bin --order 0,1", "compact store.bin recipes.bin -o n"]
    {
        folder.fails(&format!("$V {command} --client a"), 64, "does not use --client");
        folder.fails(&format!("$V {command} --tally t"), 64, "does not use --tally");
    }
    let five = "search store.bin recipes.bin --word A --word B --word X --word AB --word BA";
    folder.fails(
        &format!("$V {five} --client a=A --client b=B --client c=X --client d=AB --client e=BA"),
        64,
        "--client e=BA: a client more than 4",
    );
}

/// Runs into one tally: each adds its own, by name.
#[test]
fn a_running_tally() {
    let folder = folder("bill-running");
    let run = |clients: &str, printed: &str, now: &str| {
        folder.prints(&format!("{JOIN} --format plain {clients} --tally tally"), &format!("{FOUND}{printed}"));
        assert_eq!(tally(&folder), now, "{clients}");
        tidy(&folder);
    };
    run("--client smith=ABA --client jones=AA", "clients 2\n0 2 2\n1 1 1\n", "2 smith\n1 jones\n0\n0\n");
    run("--client smith=ABA --client jones=AA", "clients 2\n0 2 4\n1 1 2\n", "4 smith\n2 jones\n0\n0\n");
    // In whatever order, or without one of them.
    run("--client jones=ABA --client smith=AA", "clients 2\n0 1 5\n1 2 4\n", "5 smith\n4 jones\n0\n0\n");
    run("--client jones", "clients 1\n1 3 7\n", "5 smith\n7 jones\n0\n0\n");
    run("--client tab\tbed=AA --client smith", "clients 2\n0 2 7\n2 1 1\n", "7 smith\n7 jones\n1 tab\\x09bed\n0\n");
    run("--client tab\tbed", "clients 1\n2 3 4\n", "7 smith\n7 jones\n4 tab\\x09bed\n0\n");
    folder.prints(
        &format!("{SEARCH} --client jones --tally tally"),
        "file 0\n           1  ABA\n           3  ABA\nfile 1\n           0  AA\n3 occurrences in 2 of 3 files\nclient jones: 3 occurrences, 10 in all\n",
    );
    run("--client fourth=AA --client smith", "clients 2\n0 2 9\n3 1 1\n", "9 smith\n10 jones\n4 tab\\x09bed\n1 fourth\n");
    folder.fails(&format!("$V {JOIN} --client fifth --tally tally"), 64, "a client more than 4, those of the tally among them");
    // Four numbers alone are those of the clients in the order given.
    folder.write("tally", b"10\n20\n30\n40");
    run("--client b=AA --client a=ABA", "clients 2\n0 1 11\n1 2 22\n", "11 b\n22 a\n30\n40\n");
}

/// 23, and every other refusal and failure, leaves the tally and an old output as they were.
#[test]
fn a_refused_run_leaves_the_tally() {
    let folder = folder("bill-refused");
    let clients = "--client smith=ABA --client jones=AA --tally tally";
    folder.write("out", b"old");
    let kept = |line: &str, status: i32, said: &str| {
        let before = (tally(&folder), folder.entries());
        folder.fails(line, status, said);
        assert_eq!((tally(&folder), folder.entries(), folder.read("out")), (before.0, before.1, b"old".to_vec()), "{line}");
    };
    for (counts, code) in [
        ("18446744073709551613 smith\n18446744073709551614 jones\n18446744073709551615\n0\n", 0),
        ("18446744073709551614 smith\n0 jones\n0\n0\n", 23),
        ("0 smith\n18446744073709551615 jones\n0\n0\n", 23),
        ("18446744073709551613\n18446744073709551615\n0\n0\n", 23),
        ("0 a\n0 b\n18446744073709551615 smith\n0\n", 23),
    ] {
        for command in [SEARCH, JOIN] {
            folder.write("tally", counts.as_bytes());
            if code == 23 {
                let said = "the tally: refused 23: a client's count would pass 18,446,744,073,709,551,615";
                kept(&format!("$V {command} {clients} -o out"), 23, said);
                let (_, out, _) = folder.run(&format!("{command} {clients}"));
                assert_eq!(out, "");
                continue;
            }
            assert_eq!(folder.run(&format!("{command} {clients}")).0, 0);
            assert_eq!(tally(&folder), "18446744073709551615 smith\n18446744073709551615 jones\n18446744073709551615\n0\n");
        }
    }
    folder.write("tally", b"1 smith\n2 jones\n3\n4\n");
    folder.write("absent", &recipes(&[&[1], &[9]]));
    folder.write("cut", &folder.read("index.bin")[..9]);
    kept(&format!("$V join index.bin absent {clients} -o out"), 15, "absent: refused 15");
    kept(&format!("$V join index.bin words.bin {clients} -o out"), 14, "words.bin: refused 14");
    kept(&format!("$V join cut recipes.bin {clients} -o out"), 1, "cut: refused 1");
    kept(&format!("$V search words.bin recipes.bin --words words.bin {clients} -o out"), 5, "words.bin: refused 5");
    kept(&format!("$V {JOIN} {clients} -o no/such/folder"), 74, "no/such/folder: ");
    kept(&format!("$V {JOIN} {clients} -o /dev/full"), 74, "/dev/full: ");
    kept(&format!("$V {JOIN} {clients} > /dev/full"), 74, "standard output: ");
    kept(&format!("$V {JOIN} --client smith=ABA --tally tally -o out"), 64, "AA has no client");
    // What is no tally is not written over.
    for text in [
        "",
        "1\n2\n3\n",
        "1\n2\n3\n4\n5\n",
        "1\n2\n3\nx\n",
        "1\n2\n3\n18446744073709551616\n",
        "1\n2\n-3\n4\n",
        "1 a\n2 a\n3\n4\n",
    ] {
        folder.write("tally", text.as_bytes());
        kept(&format!("$V {JOIN} {clients} -o out"), 74, "tally: no tally: ");
    }
    folder.write("tally", &[b'1'; 70_000]);
    kept(&format!("$V {JOIN} {clients} -o out"), 74, "longer than 65536 bytes");
}

/// The tally is no other file of the run, and a regular one; an old one keeps its permissions, a link stays.
#[test]
fn where_the_tally_is() {
    let folder = folder("bill-where");
    folder.write("names.txt", b"a\nb\nc\n");
    let inputs = ["store.bin", "words.bin", "recipes.bin", "names.txt"];
    for input in inputs {
        let before = folder.read(input);
        folder.fails(&format!("$V {SEARCH} --names names.txt --client a --tally {input}"), 64, "is the input ");
        assert_eq!(folder.read(input), before);
    }
    folder.write("tally", b"1\n2\n3\n4\n");
    symlink("tally", folder.0.join("link")).unwrap();
    for (line, said) in [
        ("--tally tally -o tally", "tally is the tally tally: name another output"),
        ("--tally tally -o link", "link is the tally tally"),
        ("--tally ./tally -o link", "link is the tally ./tally"),
        ("--tally new -o new", "new is the tally new"),
        ("--tally new -o ./new", "./new is the tally new"),
        ("--tally tally >> tally", "standard output is the input tally"),
    ] {
        folder.fails(&format!("$V {JOIN} --client a {line}"), 64, said);
    }
    assert!(tally(&folder) == "1\n2\n3\n4\n" && !folder.0.join("new").exists());
    for (path, said) in [("/dev/null", "a tally is a regular file"), (".", "a tally is a regular file"), ("no/such", "no/such: ")]
    {
        folder.fails(&format!("$V {JOIN} --client a --tally {path}"), 74, said);
    }
    fs::set_permissions(folder.0.join("tally"), Permissions::from_mode(0o604)).unwrap();
    assert_eq!(folder.run(&format!("{JOIN} --client a --tally link")).0, 0);
    let about = fs::symlink_metadata(folder.0.join("link")).unwrap();
    let mode = fs::metadata(folder.0.join("tally")).unwrap().permissions().mode() & 0o7777;
    assert_eq!((about.is_symlink(), mode, tally(&folder)), (true, 0o604, "4 a\n2\n3\n4\n".into()));
    tidy(&folder);
}

/// A tally that another run writes while this one reads its store, from a pipe.
#[test]
fn a_tally_that_changes_meanwhile() {
    let folder = folder("bill-meanwhile");
    folder.write("tally", b"1\n2\n3\n4\n");
    let line = "mkfifo pipe; $V search pipe recipes.bin --words words.bin --client a --tally tally -o out & \
                exec 3> pipe; sleep 1; echo '5\n2\n3\n4' | sed 's/\\\\n/\\n/g' > tally; cat store.bin >&3; exec 3>&-; wait $!";
    folder.fails(line, 74, "tally: another run has changed this tally meanwhile");
    assert_eq!((tally(&folder), folder.0.join("out").exists()), ("5\n2\n3\n4\n".into(), false));
    tidy(&folder);
}

/// Over any number of joins the counts are the lists' rows.
#[test]
fn the_tally_is_the_lists() {
    let folder = folder("bill-lists");
    let (mut smith, mut jones) = (0, 0);
    for files in [&[&[1, 2][..], &[3, 3], &[]][..], &[&[3; 7]], &[], &[&[2, 2, 3, 3, 1], &[1, 2, 3]]] {
        folder.write("recipes.bin", &recipes(files));
        let (status, out, err) = folder.run(&format!("{JOIN} --format plain --client smith=ABA --client jones=AA --tally tally"));
        assert_eq!(status, 0, "{err}");
        let rows = |keyword: &str| {
            out.lines().skip(1).take_while(|row| !row.starts_with("clients")).filter(|row| row.ends_with(keyword)).count()
        };
        (smith, jones) = (smith + rows(" 0"), jones + rows(" 1"));
        assert_eq!(tally(&folder), format!("{smith} smith\n{jones} jones\n0\n0\n"));
    }
    assert!(smith > 5 && jones > 5, "{smith} {jones}");
}

#[test]
fn the_help_tells_of_clients() {
    let (_, help, _) = Folder::new("bill-help").run("--help");
    let words = help.split_whitespace().collect::<Vec<_>>().join(" ");
    for said in [
        "--client NAME=TEXT",
        "--tally FILE",
        "1 to 23 refused",
        "23 is a tally in which a client's count would pass 18,446,744,073,709,551,615",
        "A run that is refused or fails adds nothing",
    ] {
        assert!(words.contains(said), "{said}");
    }
}
