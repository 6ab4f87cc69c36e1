//! Real text: the sources of this machine, and keywords by how often they stand in it.

use std::collections::{BTreeMap, HashSet};
use std::path::{Path, PathBuf};

/// Endings of sources; files without one (C++ has such headers) are taken too.
const SOURCES: [&str; 8] = ["h", "hh", "hpp", "tcc", "c", "cc", "cpp", "inc"];

/// The sources under these folders one after the other, by name, up to that many bytes.
pub fn collect(folders: &[PathBuf], most: usize) -> Vec<u8> {
    let mut text = Vec::new();
    folders.iter().for_each(|folder| add(folder, most, &mut text));
    text.truncate(most);
    text
}

fn add(path: &Path, most: usize, text: &mut Vec<u8>) {
    if text.len() >= most || path.is_symlink() {
        return;
    }
    if let Ok(inside) = path.read_dir() {
        let mut inside: Vec<PathBuf> = inside.filter_map(|entry| entry.ok().map(|entry| entry.path())).collect();
        inside.sort();
        inside.iter().for_each(|path| add(path, most, text));
    } else if path.extension().is_none_or(|ending| SOURCES.iter().any(|source| ending == *source)) {
        // What has a byte 0 isn't text.
        text.extend(std::fs::read(path).ok().filter(|bytes| !bytes.contains(&0)).unwrap_or_default());
    }
}

/// A keyword, and how often it stands in the text as a word.
pub type Counted = (Vec<u8>, usize);

/// The 16 most frequent words of 4 letters or more, and 16 of 6 to 12 letters that stand in it twice; no two alike under the fold.
pub fn keywords(text: &[u8]) -> (Vec<Counted>, Vec<Counted>) {
    let mut counts: BTreeMap<&[u8], usize> = BTreeMap::new();
    for word in text.split(|b| !b.is_ascii_alphanumeric() && *b != b'_') {
        if (4..=32).contains(&word.len()) {
            *counts.entry(word).or_default() += 1;
        }
    }
    let mut seen = HashSet::new();
    let mut chosen = |words: Vec<(&[u8], usize)>| -> Vec<Counted> {
        let new = words.into_iter().filter(|(word, _)| seen.insert(word.to_ascii_lowercase()));
        new.take(16).map(|(word, count)| (word.to_vec(), count)).collect()
    };
    let all: Vec<(&[u8], usize)> = counts.into_iter().collect();
    let mut frequent = all.clone();
    frequent.sort_by_key(|(_, count)| std::cmp::Reverse(*count));
    let common = chosen(frequent);
    let lower = |word: &[u8]| word.iter().all(|b| b.is_ascii_lowercase());
    let twice = |(word, count): &(&[u8], usize)| *count == 2 && (6..=12).contains(&word.len()) && lower(word);
    let rare: Vec<(&[u8], usize)> = all.into_iter().filter(twice).collect();
    let stride = (rare.len() / 16).max(1);
    (common, chosen(rare.into_iter().step_by(stride).collect()))
}

#[cfg(test)]
mod tests {
    use super::*;

    #[test]
    fn by_their_counts() {
        let text = b"const const Const define(const) seldom x seldom; letter const define";
        let (common, rare) = keywords(text);
        assert_eq!(common[..2], [(b"const".to_vec(), 4), (b"define".to_vec(), 2)]);
        assert!(!common.iter().any(|(word, _)| word == b"Const" || word == b"x"));
        // Those that are common already are not taken again.
        assert!(rare.is_empty());
    }
}
