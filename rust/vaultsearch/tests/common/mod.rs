//! A folder with the small vault of document 01, and the program run in it.
#![allow(dead_code)]

use std::fs;
use std::path::PathBuf;
use std::process::Command;

pub const PROGRAM: &str = env!("CARGO_BIN_EXE_vaultsearch");

fn told(command: &mut Command) -> (i32, String, String) {
    let output = command.env("RUST_BACKTRACE", "0").output().unwrap();
    let text = |bytes: Vec<u8>| String::from_utf8(bytes).unwrap();
    (output.status.code().unwrap_or(-1), text(output.stdout), text(output.stderr))
}

pub struct Folder(pub PathBuf);

impl Folder {
    /// An empty folder of its own for each test, with the small vault of document 01.
    pub fn new(name: &str) -> Folder {
        let path = std::env::temp_dir().join(format!("vaultsearch-{name}-{}", std::process::id()));
        let _ = fs::remove_dir_all(&path);
        fs::create_dir_all(&path).unwrap();
        let folder = Folder(path);
        folder.write("store.bin", &store(&[(1, b"", b"XAB"), (2, b"", b"ABAX"), (3, b"", b"A")], b""));
        folder.write("words.bin", &[2, 0, 3, 0x41, 0x42, 0x41, 2, 0x41, 0x41]);
        folder.write("recipes.bin", &recipes(&[&[1, 2], &[3, 3], &[]]));
        folder
    }

    pub fn write(&self, name: &str, bytes: &[u8]) {
        fs::write(self.0.join(name), bytes).unwrap();
    }

    pub fn read(&self, name: &str) -> Vec<u8> {
        fs::read(self.0.join(name)).unwrap()
    }

    /// Status, standard output, standard error.
    pub fn run(&self, words: &str) -> (i32, String, String) {
        told(Command::new(PROGRAM).args(words.split(' ')).current_dir(&self.0))
    }

    /// The same of a shell's command line, in which $V is the program.
    pub fn shell(&self, line: &str) -> (i32, String, String) {
        told(Command::new("bash").args(["-c", line]).env("V", PROGRAM).current_dir(&self.0))
    }

    /// Ends with that status and says so; the program's own message, not a panic or a signal.
    pub fn fails(&self, line: &str, status: i32, said: &str) {
        let (ended, out, err) = self.shell(line);
        assert_eq!(ended, status, "{line}: {out}{err}");
        assert!(err.contains("vaultsearch: ") && err.contains(said) && !err.contains("panicked"), "{line}: {err}");
    }

    /// What is in the folder, hidden files too.
    pub fn entries(&self) -> Vec<String> {
        let names = fs::read_dir(&self.0).unwrap().map(|entry| entry.unwrap().file_name().to_string_lossy().into_owned());
        let mut names: Vec<String> = names.collect();
        names.sort();
        names
    }

    pub fn prints(&self, words: &str, want: &str) {
        let (status, out, err) = self.run(words);
        assert_eq!((status, out.as_str()), (0, want), "{words}: {err}");
    }

    /// Refused with that number: the status says it, and the message its meaning.
    pub fn refuses(&self, words: &str, code: i32, meaning: &str) {
        let (status, _, err) = self.run(words);
        assert_eq!(status, code, "{words}: {err}");
        assert!(err.contains(&format!("refused {code}: ")) && err.contains(meaning), "{words}: {err}");
    }
}

impl Drop for Folder {
    fn drop(&mut self) {
        let _ = fs::remove_dir_all(&self.0);
    }
}

/// A store: for each chunk the byte of its fingerprint, the hole before it and its bytes; then the hole behind the last one.
pub fn store(chunks: &[(u8, &[u8], &[u8])], behind: &[u8]) -> Vec<u8> {
    let mut store = [&b"DV1\n"[..], &(chunks.len() as u32).to_le_bytes()].concat();
    let mut end = 8 + 28 * chunks.len();
    for (key, hole, chunk) in chunks {
        store.extend_from_slice(&[*key; 20]);
        [end + hole.len(), chunk.len()].iter().for_each(|field| store.extend_from_slice(&(*field as u32).to_le_bytes()));
        end += hole.len() + chunk.len();
    }
    chunks.iter().for_each(|(_, hole, chunk)| store.extend([*hole, *chunk].concat()));
    store.extend_from_slice(behind);
    store
}

pub fn recipes(files: &[&[u8]]) -> Vec<u8> {
    let mut bytes = vec![files.len() as u8, 0, 0, 0];
    for file in files {
        bytes.extend_from_slice(&[file.len() as u8, 0, 0, 0]);
        file.iter().for_each(|key| bytes.extend_from_slice(&[*key; 20]));
    }
    bytes
}
