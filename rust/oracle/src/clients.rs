//! Request 110, "A tally for each client": which client each word is of, and how many finds each client has.

use crate::join::Occurrence;
use crate::keywords::Keywords;
use crate::Code;

/// A count for each of the four clients.
pub type Counts = [u64; 4];

/// The bytes of a key: the client of each word number.
pub const KEY: usize = 16;

/// 22: a key that isn't 16 bytes, or names a client above 3 for a word in the list. Entries from w on are ignored.
pub fn test(key: &[u8], keywords: &Keywords) -> Result<(), Code> {
    if key.len() != KEY {
        return Err(22);
    }
    for client in &key[..keywords.words.len()] {
        if *client > 3 {
            return Err(22);
        }
    }
    Ok(())
}

/// The number of finds of each client's words in a list. The key was tested.
pub fn counts(key: &[u8], list: &[Occurrence]) -> Counts {
    let mut counts = [0; 4];
    for find in list {
        counts[usize::from(key[usize::from(find.keyword)])] += 1;
    }
    counts
}

/// A tally's counts with these added. 23: a count that would pass 64 bits, and then none is changed.
pub fn sums(tally: &Counts, counts: &Counts) -> Result<Counts, Code> {
    let mut sums = [0; 4];
    for client in 0..4 {
        let sum = u128::from(tally[client]) + u128::from(counts[client]);
        sums[client] = u64::try_from(sum).map_err(|_| 23)?;
    }
    Ok(sums)
}

#[cfg(test)]
mod tests {
    use super::*;
    use crate::form::{FORM1, FORM2, KNOWN, NEWEST};
    use crate::keywords::list_of;
    use crate::{calls, direct, index, keywords, recipes, store};

    const MOST: u64 = u64::MAX;

    fn read(words: &[&[u8]]) -> Keywords {
        keywords::read(&list_of(false, words)).unwrap()
    }

    #[test]
    fn keys() {
        let letters: Vec<[u8; 1]> = (b'A'..=b'P').map(|b| [b]).collect();
        let (two, all) = (read(&[b"A", b"B"]), read(&letters.iter().map(|word| &word[..]).collect::<Vec<_>>()));
        let code = |key: &[u8], keywords: &Keywords| test(key, keywords).err().unwrap_or(0);
        for length in 0..40 {
            let want = if length == 16 { 0 } else { 22 };
            assert_eq!((code(&vec![0; length], &two), code(&vec![3; length], &all)), (want, want), "{length}");
        }
        for (at, client) in (0..16).flat_map(|at| [0, 1, 2, 3, 4, 5, 127, 128, 255].map(|client| (at, client))) {
            let mut key = [3; 16];
            key[at] = client;
            assert_eq!(code(&key, &two), if client > 3 && at < 2 { 22 } else { 0 }, "{at} {client}");
            assert_eq!(code(&key, &all), if client > 3 { 22 } else { 0 }, "{at} {client}");
        }
        let ignored = [&[1, 2][..], &[0xFF; 14]].concat();
        assert_eq!((code(&ignored, &two), code(&ignored, &read(&[b"A", b"B", b"C"]))), (0, 22));
    }

    #[test]
    fn sums_of_64_bits() {
        for (tally, counts, want) in [
            ([0; 4], [1, 0, 2, 3], Ok([1, 0, 2, 3])),
            ([5, 6, 7, 8], [1, 0, 2, 3], Ok([6, 6, 9, 11])),
            // The largest number is reached, and a full count of a client without finds is no fault.
            ([MOST - 1, MOST, MOST - 2, MOST - 3], [1, 0, 2, 3], Ok([MOST; 4])),
            ([MOST; 4], [0; 4], Ok([MOST; 4])),
            ([MOST, 0, 0, 0], [1, 0, 2, 3], Err(23)),
            ([0, MOST, MOST, 0], [0, 0, 1, 0], Err(23)),
            ([0, 0, 0, MOST - 2], [1, 0, 2, 3], Err(23)),
            ([0, 0, 0, MOST], [0, 0, 0, MOST], Err(23)),
        ] {
            assert_eq!(sums(&tally, &counts), want, "{tally:?} {counts:?}");
        }
    }

    /// The chunks XAB, ABAX and A for ABA and AA, in that form.
    fn small(form: &crate::form::Form) -> Vec<u8> {
        let list = list_of(false, &[b"ABA", b"AA"]);
        index::of_scan(form, &list, &keywords::read(&list).unwrap(), &store(), &store::read(&store()).unwrap())
    }

    fn store() -> Vec<u8> {
        store::encode(&[([1; 20], &b"XAB"[..]), ([2; 20], b"ABAX"), ([3; 20], b"A")])
    }

    fn files(files: &[&[u8]]) -> Vec<u8> {
        recipes::encode(&files.iter().map(|file| file.iter().map(|key| [*key; 20]).collect()).collect::<Vec<_>>())
    }

    const UNTOLD: u64 = 0xA5A5;

    /// Code, count, buffer and tally of a join.
    fn joined(index: &[u8], recipes: &[u8], key: &[u8], room: usize, before: Counts) -> (Code, u64, Vec<u8>, Counts) {
        let (mut out, mut count, mut tally) = (vec![0xEE; room], UNTOLD, before);
        let code = calls::join(index, recipes, key, &mut out, &mut count, &mut tally);
        (code, count, out, tally)
    }

    fn key(clients: &[u8]) -> Vec<u8> {
        [clients, &vec![0xFF; 16 - clients.len()]].concat()
    }

    /// Document 01's list has keyword 0 twice and keyword 1 once.
    #[test]
    fn the_small_vault() {
        let (index, recipes) = (small(&NEWEST), files(&[&[1, 2], &[3, 3], &[]]));
        for (clients, want) in [([0, 1], [2, 1, 0, 0]), ([3, 2], [0, 0, 1, 2]), ([2, 2], [0, 0, 3, 0]), ([0, 0], [3, 0, 0, 0])] {
            for before in [[0; 4], [7, 8, 9, 10], [MOST - 3; 4]] {
                let (code, count, _, after) = joined(&index, &recipes, &key(&clients), 30, before);
                let sum: Vec<u64> = before.iter().zip(want).map(|(a, b)| a + b).collect();
                assert_eq!((code, count, &after[..]), (0, 3, &sum[..]), "{clients:?}");
            }
        }
    }

    /// Each number with everything wrong that is tested behind it; nothing is written, told or added by a refusal.
    #[test]
    fn the_order_of_the_tests() {
        let (index, good) = (small(&NEWEST), files(&[&[1, 2], &[3, 3], &[]]));
        let (short, absent) = (files(&[&[1, 3, 2]]), files(&[&[1, 9]]));
        let full = [MOST; 4];
        let refused = |index: &[u8], recipes: &[u8], key: &[u8], room: usize, before: Counts, want: Code| {
            assert_eq!(joined(index, recipes, key, room, before), (want, UNTOLD, vec![0xEE; room], before), "{want}");
        };
        let bad = [4; 16];
        refused(&index[..7], &[1], &bad, 0, full, 10);
        refused(&index[..9], &[1], &bad, 0, full, 1);
        refused(&index[..60], &[1], &bad, 0, full, 11);
        refused(&index, &[1], &bad, 0, full, 14);
        refused(&index, &absent, &bad, 0, full, 15);
        refused(&small(&FORM1), &short, &bad, 0, full, 17);
        refused(&small(&FORM2), &short, &bad, 0, full, 17);
        refused(&index, &good, &bad, 26, full, 18);
        refused(&index, &good, &[], 26, [0; 4], 18);
        for (key, before) in [(&bad[..], full), (&bad, [0; 4]), (&[], full), (&[0; 15], [0; 4]), (&[0; 17], [0; 4])] {
            refused(&index, &good, key, 27, before, 22);
            // An empty list too.
            refused(&index, &[0; 4], key, 0, before, 22);
        }
        refused(&index, &good, &key(&[0, 4]), 27, [0; 4], 22);
        // Keyword 1 has no find in this one.
        refused(&index, &files(&[&[1, 2]]), &key(&[0, 4]), 27, [0; 4], 22);
        refused(&index, &good, &key(&[0, 1]), 26, full, 18);
        for (clients, before) in [
            ([0, 1], [MOST - 1, 0, 0, 0]),
            ([0, 1], [MOST - 2, MOST, 0, 0]),
            ([1, 3], [5, 5, 5, MOST]),
            ([2, 2], [0, 0, MOST - 2, 0]),
        ] {
            refused(&index, &good, &key(&clients), 27, before, 23);
        }
        for (clients, before) in
            [([0, 1], [MOST - 2, MOST - 1, MOST, MOST]), ([1, 3], [MOST, 5, MOST, 5]), ([2, 2], [0, 0, MOST - 3, 0])]
        {
            assert_eq!(joined(&index, &good, &key(&clients), 27, before).0, 0, "{clients:?}");
        }
        assert_eq!(joined(&index, &[0; 4], &key(&[3, 3]), 0, full), (0, 0, vec![], full));
    }

    /// A search adds what its join does; a refusal of its scan or of its join leaves the tally.
    #[test]
    fn searches() {
        let (list, recipes) = (list_of(false, &[b"ABA", b"AA"]), files(&[&[1, 2], &[3, 3], &[]]));
        let length = small(&NEWEST).len() as u64;
        for (key, room, rows, before, want) in [
            (key(&[3, 1]), 200, 27, [1, 2, 3, 4], (0, length, 3, [1, 3, 3, 6])),
            (key(&[3, 4]), 20, 27, [1, 2, 3, 4], (9, UNTOLD, UNTOLD, [1, 2, 3, 4])),
            (key(&[3, 4]), 200, 26, [MOST; 4], (18, length, UNTOLD, [MOST; 4])),
            (key(&[3, 4]), 200, 27, [MOST; 4], (22, length, UNTOLD, [MOST; 4])),
            (key(&[3, 1]), 200, 27, [1, 2, 3, MOST - 1], (23, length, UNTOLD, [1, 2, 3, MOST - 1])),
        ] {
            let (mut index, mut out, mut told, mut count, mut tally) = (vec![0; room], vec![0; rows], UNTOLD, UNTOLD, before);
            let code =
                calls::search(&list, &store(), &recipes, &key, (&mut index, &mut out), (&mut told, &mut count), &mut tally);
            assert_eq!((code, told, count, tally), want);
        }
    }

    /// Joins into a tally that began at zero, some refused: each client has the finds of its words in the restored files of the accepted ones.
    #[test]
    fn a_list_of_joins() {
        let words: &[&[u8]] = &[b"ABA", b"AA", b"B", b"AABB", b"xA"];
        let list = list_of(true, words);
        let pieces: [&[u8]; 5] = [b"A", b"b", b"ABA", b"xa", b"BAAB"];
        let chunks: Vec<_> = pieces.iter().enumerate().map(|(k, piece)| ([k as u8; 20], *piece)).collect();
        let store = store::encode(&chunks);
        let keywords = keywords::read(&list).unwrap();
        let read = store::read(&store).unwrap();
        let (mut tally, mut want, mut codes) = ([0; 4], [0; 4], Vec::new());
        for run in 0..200usize {
            let files: Vec<Vec<_>> =
                (0..run % 4).map(|f| (0..f + run % 5).map(|p| [((run * p + f) % 5) as u8; 20]).collect()).collect();
            let clients: Vec<u8> = (0..5).map(|k| ((run / 3 + k * k) % if run % 7 == 0 { 5 } else { 4 }) as u8).collect();
            let index = index::of_scan(&KNOWN[2], &list, &keywords, &store, &read);
            let found = direct::search(&keywords, &direct::restore(&store, &read, &files).unwrap());
            let room = 9 * found.len() - usize::from(run % 11 == 0 && !found.is_empty());
            let code = joined_into(&index, &recipes::encode(&files), &key(&clients), room, &mut tally);
            codes.push(code);
            if code == 0 {
                found.iter().for_each(|find| want[usize::from(clients[usize::from(find.keyword)])] += 1);
            }
            assert_eq!(tally, want, "{run}");
        }
        assert!([0, 18, 22].iter().all(|code| codes.contains(code)) && want.iter().all(|count| *count > 50), "{want:?}");
    }

    fn joined_into(index: &[u8], recipes: &[u8], key: &[u8], room: usize, tally: &mut Counts) -> Code {
        calls::join(index, recipes, key, &mut vec![0; room], &mut 0, tally)
    }
}
