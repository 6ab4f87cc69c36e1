//! The second oracle: restored files, searched at every offset for every keyword. It knows no record and no index.

use crate::join::Occurrence;
use crate::keywords::Keywords;
use crate::store::Chunk;
use crate::Fingerprint;
use std::collections::HashMap;

/// Each file's bytes: its chunks' bytes joined, in the order named. `None` if a fingerprint isn't in the store.
pub fn restore(store: &[u8], chunks: &[Chunk], files: &[Vec<Fingerprint>]) -> Option<Vec<Vec<u8>>> {
    let chunk_of: HashMap<&Fingerprint, &[u8]> = chunks.iter().map(|c| (&c.key, &store[c.place.clone()])).collect();
    let restored = |file: &Vec<Fingerprint>| {
        let parts: Option<Vec<&[u8]>> = file.iter().map(|key| chunk_of.get(key).copied()).collect();
        parts.map(|parts| parts.concat())
    };
    files.iter().map(restored).collect()
}

/// Every find, by file, then offset, then keyword.
pub fn search(keywords: &Keywords, files: &[Vec<u8>]) -> Vec<Occurrence> {
    let mut list = Vec::new();
    for (file, data) in files.iter().enumerate() {
        for at in 0..data.len() {
            for keyword in 0..keywords.words.len() {
                if keywords.stands_at(keyword, data, at) {
                    list.push(Occurrence { file: file as u32, offset: at as u32, keyword: keyword as u8 });
                }
            }
        }
    }
    list
}
