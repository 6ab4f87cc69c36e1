//! Request 107, "Giving back the holes": from a store and recipes, a store without holes that has exactly the chunks that some recipe
//! names, in their old order.

use crate::{recipes, store, Code, Fingerprint};
use std::collections::HashSet;

/// The new store, whatever its length. The tests in the request's order: the store's, 14, and 15 for a fingerprint that isn't in the store.
pub fn of(bytes: &[u8], recipe_bytes: &[u8]) -> Result<Vec<u8>, Code> {
    let chunks = store::read(bytes)?;
    let files = recipes::read(recipe_bytes)?;
    let named: HashSet<&Fingerprint> = files.iter().flatten().collect();
    let stored: HashSet<&Fingerprint> = chunks.iter().map(|c| &c.key).collect();
    if !named.is_subset(&stored) {
        return Err(15);
    }
    let kept = chunks.iter().filter(|c| named.contains(&c.key));
    Ok(store::encode(&kept.map(|c| (c.key, &bytes[c.place.clone()])).collect::<Vec<_>>()))
}

#[cfg(test)]
mod tests {
    use super::*;
    use crate::form::{FORM2, NEWEST};
    use crate::{calls, index};

    const NONE: [u8; 4] = [0; 4];

    fn files(files: &[&[u8]]) -> Vec<u8> {
        recipes::encode(&files.iter().map(|file| file.iter().map(|key| [*key; 20]).collect()).collect::<Vec<_>>())
    }

    /// Document 01's small store, with two bytes before the first chunk, none, three, and one behind the last: 106 bytes.
    fn holed() -> Vec<u8> {
        let holes = [vec![0xEE; 2], vec![], vec![0xEE; 3], vec![0xEE]];
        store::encode_with_holes(&[([1; 20], &b"XAB"[..]), ([2; 20], b"ABAX"), ([3; 20], b"A")], &holes)
    }

    /// Byte by byte: the chunks XAB and A, of which the recipes name the second first and twice.
    #[test]
    fn two_of_three_chunks_by_hand() {
        let mut want = vec![0x44, 0x56, 0x31, 0x0A, 2, 0, 0, 0];
        want.extend_from_slice(&[1; 20]);
        want.extend_from_slice(&[64, 0, 0, 0, 3, 0, 0, 0]);
        want.extend_from_slice(&[3; 20]);
        want.extend_from_slice(&[67, 0, 0, 0, 1, 0, 0, 0]);
        want.extend_from_slice(&[0x58, 0x41, 0x42, 0x41]);
        assert_eq!((holed().len(), want.len()), (106, 68));
        for named in [&[&[3, 1, 3][..]][..], &[&[1, 3]], &[&[], &[3], &[1], &[], &[3]]] {
            assert_eq!(of(&holed(), &files(named)), Ok(want.clone()), "{named:?}");
        }
        assert_eq!(of(&want, &files(&[&[3, 1]])), Ok(want.clone()));
    }

    #[test]
    fn nothing_named() {
        let empty = vec![0x44, 0x56, 0x31, 0x0A, 0, 0, 0, 0];
        let behind = [&empty[..], b"a hole"].concat();
        for (store, recipes) in
            [(holed(), NONE.to_vec()), (holed(), files(&[&[], &[]])), (behind, NONE.to_vec()), (empty.clone(), NONE.to_vec())]
        {
            assert_eq!(of(&store, &recipes), Ok(empty.clone()));
        }
    }

    #[test]
    fn everything_named_is_the_store_without_holes() {
        let plain = store::encode(&[([1; 20], &b"XAB"[..]), ([2; 20], b"ABAX"), ([3; 20], b"A")]);
        for named in [[1, 2, 3], [3, 2, 1], [2, 3, 1]] {
            assert_eq!(of(&holed(), &files(&[&named])), Ok(plain.clone()));
            assert_eq!(of(&plain, &files(&[&named])), Ok(plain.clone()));
        }
    }

    /// The store's numbers, 14, 15, 9: each with everything wrong that is tested behind it.
    #[test]
    fn the_order_of_the_tests() {
        let (bad_form, absent, good) = (files(&[&[9]])[..20].to_vec(), files(&[&[1], &[2, 9, 3]]), files(&[&[1]]));
        let code = |store: &[u8], recipes: &[u8], room: usize| {
            let (mut out, mut length) = (vec![0xEE; room], 0xA5A5);
            let code = calls::compact(store, recipes, &mut out, &mut length);
            assert!(code == 0 || length == 0xA5A5 && out.iter().all(|b| *b == 0xEE));
            assert!(code != 0 || length == 39 && out[39..].iter().all(|b| *b == 0xEE));
            code
        };
        let twins = store::encode(&[([1; 20], b"A"), ([1; 20], b"B")]);
        assert_eq!([code(b"DV1", &bad_form, 0), code(b"DV1\n\x01\0\0\0", &bad_form, 0)], [5, 6]);
        assert_eq!([code(&holed()[..104], &bad_form, 0), code(&twins, &bad_form, 0)], [7, 8]);
        assert_eq!([code(&holed(), &bad_form, 0), code(&holed(), &absent, 0), code(&holed(), &good, 0)], [14, 15, 9]);
        assert_eq!([code(&holed(), &good, 38), code(&holed(), &good, 39), code(&holed(), &good, 45)], [9, 0, 0]);
        let mut beyond = holed();
        beyond[8 + 56 + 20..8 + 56 + 24].fill(0xFF);
        assert_eq!(code(&beyond, &bad_form, 0), 20);
    }

    #[test]
    fn the_size_alone() {
        let size = |recipes: &[u8]| {
            let mut length = 0xA5A5;
            (calls::compact_size(&holed(), recipes, &mut length), length)
        };
        assert_eq!(
            (size(&NONE), size(&files(&[&[2]])), size(&files(&[&[4]])), size(&[])),
            ((0, 8), (0, 40), (15, 0xA5A5), (14, 0xA5A5))
        );
    }

    /// A join would refuse the file of 4,096 of the longest chunks with 16, and three of one byte, for a keyword of three, with 17 under the
    /// older marks.
    #[test]
    fn no_16_and_no_17() {
        let store = store::encode(&[([1; 20], vec![0; 1_048_576]), ([2; 20], vec![0])]);
        let long = recipes::encode(&[vec![[1; 20]; 4_096]]);
        assert_eq!(of(&store, &long).map(|new| new.len()), Ok(36 + 1_048_576));
        assert_eq!(of(&store, &files(&[&[2, 2, 2]])).map(|new| new.len()), Ok(37));
        let list = crate::keywords::list_of(false, &[b"ABA"]);
        for (form, short) in [(FORM2, 17), (NEWEST, 0)] {
            let index = index::encode(&form, &list, &[([1; 20], form.longest_chunk, b""), ([2; 20], 1, b"")]);
            assert_eq!(calls::count(&index, &long, &mut 0), 16);
            assert_eq!(calls::count(&index, &files(&[&[2, 2, 2]]), &mut 0), short);
        }
    }
}
