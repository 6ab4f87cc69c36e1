//! Document 01, "Recipes": their form (14), and each file's tests against the index (15, 16, and 17 where its form has no sets).

use crate::index::Index;
use crate::{fingerprint, number, Code, Fingerprint, U32};
use std::collections::HashMap;

/// Each file's fingerprints; 14 if the bytes aren't recipes.
pub fn read(recipes: &[u8]) -> Result<Vec<Vec<Fingerprint>>, Code> {
    if recipes.len() < 4 {
        return Err(14);
    }
    let count = number(recipes, 0);
    if count > 65_535 {
        return Err(14);
    }
    let mut files = Vec::new();
    let mut at = 4;
    for _ in 0..count {
        if recipes.len() - at < 4 {
            return Err(14);
        }
        let places = number(recipes, at);
        at += 4;
        if ((recipes.len() - at) as u64) < 20 * places {
            return Err(14);
        }
        let places = places as usize;
        files.push((0..places).map(|p| fingerprint(recipes, at + 20 * p)).collect());
        at += 20 * places;
    }
    if at != recipes.len() {
        return Err(14);
    }
    Ok(files)
}

/// Each file's places as entries of the index; 15, 16 or 17 for the first file that fails, each test over the whole file.
pub fn resolve(index: &Index, files: &[Vec<Fingerprint>]) -> Result<Vec<Vec<usize>>, Code> {
    let entry_of: HashMap<&Fingerprint, usize> = index.entries.iter().enumerate().map(|(e, entry)| (&entry.key, e)).collect();
    // Request 108: an index with sets joins over chunks of any length.
    let due = if index.form.sets { 0 } else { index.keywords.longest() as u64 - 1 };
    let mut resolved = Vec::new();
    for file in files {
        let mut places = Vec::new();
        for key in file {
            places.push(*entry_of.get(key).ok_or(15)?);
        }
        let sizes: Vec<u64> = places.iter().map(|e| index.entries[*e].size).collect();
        if sizes.iter().sum::<u64>() > U32 {
            return Err(16);
        }
        let inner = if sizes.len() > 2 { &sizes[1..sizes.len() - 1] } else { &[] };
        if inner.iter().any(|size| *size < due) {
            return Err(17);
        }
        resolved.push(places);
    }
    Ok(resolved)
}

/// Recipes of these files.
pub fn encode(files: &[Vec<Fingerprint>]) -> Vec<u8> {
    let mut bytes = (files.len() as u32).to_le_bytes().to_vec();
    for file in files {
        bytes.extend_from_slice(&(file.len() as u32).to_le_bytes());
        file.iter().for_each(|key| bytes.extend_from_slice(key));
    }
    bytes
}

#[cfg(test)]
mod tests {
    use super::*;
    use crate::form::{FORM1, FORM2, FORM3};
    use crate::{index, keywords::list_of};

    fn code(recipes: &[u8]) -> Code {
        read(recipes).err().unwrap_or(0)
    }

    #[test]
    fn form() {
        assert_eq!(code(&[]), 14);
        assert_eq!(code(&[0, 0, 0]), 14);
        assert_eq!(code(&[0, 0, 0, 0]), 0);
        assert_eq!(code(&[0, 0, 0, 0, 0]), 14);
        assert_eq!(code(&[1, 0, 0, 0]), 14);
        assert_eq!(code(&[1, 0, 0, 0, 0, 0, 0, 0]), 0);
        for wraps in [0x4000_0000u32, 0x4000_0001, u32::MAX] {
            let mut recipes = vec![1, 0, 0, 0];
            recipes.extend_from_slice(&wraps.to_le_bytes());
            recipes.extend_from_slice(&[0; 20]);
            assert_eq!(code(&recipes), 14);
        }
        assert_eq!(code(&encode(&vec![vec![]; 65_535])), 0);
        assert_eq!(code(&encode(&vec![vec![]; 65_536])), 14);
        assert_eq!(code(&encode(&[vec![[7; 20]; 3], vec![], vec![[8; 20]]])), 0);
    }

    /// Two chunks of the longest length and one byte, and a keyword of three bytes.
    fn long_and_short() -> Index {
        index::read(&index::encode(
            &FORM1,
            &list_of(false, &[b"ABA"]),
            &[([1; 20], 65_535, b""), ([2; 20], 1, b""), ([3; 20], 2, b"")],
        ))
        .unwrap()
    }

    fn resolve_code(files: &[Vec<Fingerprint>]) -> Code {
        resolve(&long_and_short(), files).err().unwrap_or(0)
    }

    #[test]
    fn the_longest_file() {
        let mut file = vec![[1; 20]; 65_537];
        assert_eq!(resolve_code(&[file.clone()]), 0);
        file.push([2; 20]);
        assert_eq!(resolve_code(&[file.clone()]), 16);
        file[3] = [2; 20];
        assert_eq!(resolve_code(&[file]), 17);
    }

    /// Request 105: 4,096 of the longest chunks are one byte too many.
    #[test]
    fn the_longest_file_of_the_longest_chunks() {
        let entries = [([1; 20], 1_048_576, b""), ([2; 20], 1_048_575, b"")];
        let index = index::read(&index::encode(&FORM2, &list_of(false, &[b"ABA"]), &entries)).unwrap();
        let code = |file: Vec<Fingerprint>| resolve(&index, &[file]).err().unwrap_or(0);
        let mut file = vec![[1; 20]; 4_095];
        assert_eq!(code(file.clone()), 0);
        file.push([2; 20]);
        assert_eq!(code(file.clone()), 0);
        file[0] = [2; 20];
        assert_eq!(code(file.clone()), 0);
        assert_eq!(code(vec![[1; 20]; 4_096]), 16);
    }

    /// Request 108: 17 goes by the mark, and 15 and 16 do not.
    #[test]
    fn no_17_where_there_are_sets() {
        let (long, one, unknown) = ([1; 20], [2; 20], [9; 20]);
        for (form, short) in [(FORM1, 17), (FORM2, 17), (FORM3, 0)] {
            let entries = [(long, 65_535, b""), (one, 1, b"")];
            let index = index::read(&index::encode(&form, &list_of(false, &[b"ABA"]), &entries)).unwrap();
            let code = |files: &[Vec<Fingerprint>]| resolve(&index, files).err().unwrap_or(0);
            assert_eq!(code(&[vec![one, one, one], vec![long, one, one, long]]), short);
            assert_eq!(code(&[vec![one, one, unknown]]), 15);
            assert_eq!(code(&[vec![one, one, one], vec![unknown]]), if short == 0 { 15 } else { short });
            assert_eq!(code(&[[vec![long; 65_537], vec![one; 2]].concat()]), 16);
        }
    }

    #[test]
    fn file_by_file() {
        let (long, one, two, unknown) = ([1; 20], [2; 20], [3; 20], [9; 20]);
        assert_eq!(resolve_code(&[vec![one, one], vec![one], vec![]]), 0);
        assert_eq!(resolve_code(&[vec![one, two, one]]), 0);
        assert_eq!(resolve_code(&[vec![long, one, long]]), 17);
        assert_eq!(resolve_code(&[vec![one, one, one]]), 17);
        assert_eq!(resolve_code(&[vec![one, one, unknown]]), 15);
        assert_eq!(resolve_code(&[vec![one, one, one], vec![unknown]]), 17);
        assert_eq!(resolve_code(&[vec![unknown], vec![one, one, one]]), 15);
        let mut both = vec![long; 65_538];
        both[1] = one;
        both.push(long);
        assert_eq!(resolve_code(&[both]), 16);
    }
}
