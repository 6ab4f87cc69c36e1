//! The test of the test: each fault of `mutants.txt` stands in the library's place, and `difftest` must see it.
//!
//!     mutants [NAME-PART]
//!
//! A copy of the workspace is made in target/mutants, with the oracle twice: as it is, for difftest, and with one fault,
//! behind the feature `mock` of `vault`.

use std::fs;
use std::path::{Path, PathBuf};
use std::process::{Command, ExitCode};

struct Mutant {
    name: String,
    edits: Vec<Edit>,
    /// The words with which difftest sees it, where the usual runs can't.
    words: Option<String>,
}

#[derive(Default)]
struct Edit {
    file: String,
    old: String,
    new: String,
}

fn mutants(text: &str) -> Vec<Mutant> {
    let mut all: Vec<Mutant> = Vec::new();
    for line in text.lines() {
        if let Some(name) = line.strip_prefix("= ") {
            all.push(Mutant { name: name.into(), edits: vec![], words: None });
            continue;
        }
        let Some(mutant) = all.last_mut() else { continue };
        if let Some(file) = line.strip_prefix("@ ") {
            mutant.edits.push(Edit { file: file.into(), ..Edit::default() });
        } else if let Some(words) = line.strip_prefix("! ") {
            mutant.words = Some(words.into());
        } else if let (Some(edit), Some(first)) = (mutant.edits.last_mut(), line.chars().next()) {
            let to = if first == '-' { &mut edit.old } else { &mut edit.new };
            if !to.is_empty() {
                to.push('\n');
            }
            to.push_str(&line[1..]);
        }
    }
    all
}

fn copy(from: &Path, to: &Path) {
    fs::create_dir_all(to).expect("a folder can be made");
    for entry in fs::read_dir(from).expect("a folder of the workspace") {
        let path = entry.expect("an entry").path();
        let target = to.join(path.file_name().expect("a name"));
        if path.is_dir() {
            copy(&path, &target);
        } else {
            fs::copy(&path, &target).expect("a file can be copied");
        }
    }
}

fn replace(path: &Path, old: &str, new: &str) -> Result<(), String> {
    let text = fs::read_to_string(path).map_err(|error| format!("{}: {error}", path.display()))?;
    match text.matches(old).count() {
        1 => fs::write(path, text.replace(old, new)).map_err(|error| error.to_string()),
        n => Err(format!("{}: the old text is there {n} times", path.display())),
    }
}

/// The copy: oracle, mutant, vault over the mutant, difftest.
fn workspace(from: &Path, to: &Path) {
    for name in ["oracle", "vault", "difftest"] {
        let _ = fs::remove_dir_all(to.join(name));
        copy(&from.join(name), &to.join(name));
    }
    let _ = fs::remove_dir_all(to.join("difftest/src/bin"));
    let cargo = "[workspace]\nresolver = \"2\"\nmembers = [\"oracle\", \"mutant\", \"vault\", \"difftest\"]\n\
        [workspace.package]\nversion = \"0.1.0\"\nedition = \"2021\"\npublish = false\n[profile.release]\nopt-level = 1\nincremental = true\n";
    fs::write(to.join("Cargo.toml"), cargo).expect("a file can be written");
    let dependency = "oracle = { path = \"../oracle\", optional = true }";
    replace(&to.join("vault/Cargo.toml"), dependency, "oracle = { package = \"mutant\", path = \"../mutant\", optional = true }")
        .expect("vault's dependency");
}

/// Puts the fault in.
fn mutate(from: &Path, to: &Path, mutant: &Mutant) -> Result<(), String> {
    let folder = to.join("mutant");
    copy(&from.join("oracle"), &folder);
    replace(&folder.join("Cargo.toml"), "name = \"oracle\"", "name = \"mutant\"")?;
    mutant.edits.iter().try_for_each(|edit| replace(&folder.join("src").join(&edit.file), &edit.old, &edit.new))
}

/// Builds and runs; what difftest said of the difference, or nothing if it saw none.
fn seen(to: &Path, mutant: &Mutant) -> Result<Option<String>, String> {
    let words = ["build", "--release", "--offline", "-q", "-p", "difftest", "--features", "mock"];
    let built = Command::new("cargo").args(words).env("RUSTFLAGS", "-A warnings").current_dir(to).output();
    let built = built.map_err(|error| error.to_string())?;
    if !built.status.success() {
        return Err(format!("it doesn't build\n{}", String::from_utf8_lossy(&built.stderr)));
    }
    let runs = mutant.words.as_deref().map_or(vec!["6000 7 --quick", "100 7"], |words| vec![words]);
    for words in runs {
        let run = Command::new(to.join("target/release/difftest")).args(words.split(' ')).current_dir(to).output();
        let run = run.map_err(|error| error.to_string())?;
        if !run.status.success() {
            let text = String::from_utf8_lossy(&run.stdout).into_owned() + &String::from_utf8_lossy(&run.stderr);
            // The reason stands behind the colon, or on the next line.
            let mut lines = text.lines().skip_while(|line| !line.contains("DIFFERENCE"));
            let said = lines.next().and_then(|line| line.strip_prefix("DIFFERENCE: ").or(lines.next()));
            let panicked = text.lines().skip_while(|line| !line.contains("panicked")).nth(1);
            return Ok(Some(said.or(panicked).unwrap_or("ended with a failure").trim().to_string()));
        }
    }
    Ok(None)
}

fn main() -> ExitCode {
    let part = std::env::args().nth(1).unwrap_or_default();
    let from = PathBuf::from(env!("CARGO_MANIFEST_DIR")).join("..");
    let to = from.join("target/mutants");
    fs::create_dir_all(&to).expect("a folder can be made");
    workspace(&from, &to);
    let (mut killed, mut wrong) = (0, Vec::new());
    for mutant in mutants(include_str!("../../mutants.txt")).iter().filter(|m| m.name.contains(&part)) {
        let verdict = mutate(&from, &to, mutant).and_then(|()| seen(&to, mutant));
        match verdict {
            Ok(Some(why)) => {
                killed += 1;
                println!("seen      {:<55} {why}", mutant.name);
            }
            Ok(None) => {
                println!("NOT SEEN  {}", mutant.name);
                wrong.push(mutant.name.clone());
            }
            Err(why) => {
                println!("BAD EDIT  {}: {why}", mutant.name);
                wrong.push(mutant.name.clone());
            }
        }
    }
    println!("{killed} faults seen, {} not", wrong.len());
    if wrong.is_empty() {
        ExitCode::SUCCESS
    } else {
        ExitCode::FAILURE
    }
}
