//! Request 110: which client each keyword is of, and how many occurrences each client has.

/// The most clients that a key names.
pub const CLIENTS: usize = 4;

/// Bytes of a key: the client, 0 to 3, of each keyword number. Entries from the keyword count on are ignored.
pub const KEY: usize = 16;

/// The key of one client: every keyword is client 0's.
pub const ONE_CLIENT: [u8; KEY] = [0; KEY];

/// The occurrences of each client, lent to joins and searches, which add to it: 64 bits each.
///
/// Begin a bill with [`Tally::default`], which is all zero. After any joins and searches into it each count is the number of occurrences of that
/// client's keywords in the lists of those that were accepted; one that is refused adds nothing. A count that would pass 64 bits is refused (23).
#[derive(Clone, Copy, Debug, Default, PartialEq, Eq)]
pub struct Tally {
    pub counts: [u64; CLIENTS],
}

/// The key in which keyword k is of client `clients[k]`, and all behind are client 0's. Of more than 16 clients it is too long, which a join refuses
/// with 22 as it does a client above 3.
pub fn key(clients: &[u8]) -> Vec<u8> {
    let mut key = clients.to_vec();
    key.resize(KEY.max(clients.len()), 0);
    key
}

#[cfg(test)]
mod tests {
    use super::*;
    use crate::tests::{recipes_of, small, with_stack};
    use crate::{join, join_bytes, join_into, raw, scan, search, search_into, unbilled, Error, SearchError, Searched};

    const MOST: u64 = u64::MAX;

    #[test]
    fn keys() {
        assert_eq!(key(&[]), ONE_CLIENT);
        assert_eq!(key(&[3, 1]), [3, 1, 0, 0, 0, 0, 0, 0, 0, 0, 0, 0, 0, 0, 0, 0]);
        assert_eq!((key(&[2; 16]), key(&[2; 17]).len()), (vec![2; 16], 17));
    }

    /// Document 01's list has keyword 0 twice and keyword 1 once: whose they are, and what was there before.
    #[test]
    fn each_clients_occurrences() {
        with_stack(|| {
            let (list, store, recipes) = small();
            let index = scan(&list, &store).unwrap().index;
            for (clients, want) in [
                ([0, 0], [3, 0, 0, 0]),
                ([0, 1], [2, 1, 0, 0]),
                ([1, 0], [1, 2, 0, 0]),
                ([3, 2], [0, 0, 1, 2]),
                ([2, 2], [0, 0, 3, 0]),
            ] {
                // What is behind the two keywords is ignored.
                let key = [&clients[..], &[0xFF; 14]].concat();
                for before in [[0; 4], [10, 20, 30, 40], [MOST - 3; 4]] {
                    let after = std::array::from_fn(|client| before[client] + want[client]);
                    let mut tallies = [Tally { counts: before }; 5];
                    assert_eq!(join(&index, &recipes, &key, &mut tallies[0]), unbilled::join(&index, &recipes));
                    assert_eq!(join_bytes(&index, &recipes, &key, &mut tallies[1]), unbilled::join_bytes(&index, &recipes));
                    assert_eq!(join_into(&index, &recipes, &key, &mut tallies[2], &mut [0; 27]), Ok(3));
                    assert_eq!(search(&list, &store, &recipes, &key, &mut tallies[3]), unbilled::search(&list, &store, &recipes));
                    let searched = search_into(&list, &store, &recipes, &key, &mut tallies[4], (&mut [0; 138], &mut [0; 27]));
                    assert_eq!(searched, Ok(Searched { index_length: 138, count: 3 }));
                    assert_eq!(tallies, [Tally { counts: after }; 5], "{clients:?} {before:?}");
                }
            }
        });
    }

    /// The tests in their order, each with every later one failing too; a refusal leaves the count, the buffer and the tally as they were.
    #[test]
    fn what_a_join_refuses() {
        with_stack(|| {
            let (list, store, all) = small();
            let index = scan(&list, &store).unwrap().index;
            let older = [b"DM2\n", &index[4..]].concat();
            let (absent, short, none) = (recipes_of(&[&[1], &[9]]), recipes_of(&[&[1, 3, 2]]), recipes_of(&[]));
            let first = recipes_of(&[&[1, 2]]);
            let (good, bad) = (key(&[0, 1]), [4; 16]);
            let full = [MOST; 4];
            for (index, recipes, key, room, before, want) in [
                (&index[..7], &all[1..], &bad[..], 0, full, 10),
                (&index[..8], &all[1..], &bad, 0, full, 1),
                (&index[..137], &all[1..], &bad, 0, full, 11),
                (&index, &all[1..], &bad, 0, full, 14),
                (&index, &absent, &bad, 0, full, 15),
                (&older, &short, &bad, 0, full, 17),
                (&index, &all, &bad, 26, full, 18),
                (&index, &all, &[], 26, full, 18),
                (&index, &all, &good, 26, full, 18),
                (&index, &all, &bad, 27, full, 22),
                (&index, &all, &[], 27, full, 22),
                (&index, &all, &good[..15], 27, [0; 4], 22),
                (&index, &all, &[0; 17], 27, [0; 4], 22),
                (&index, &all, &[4, 0, 0, 0, 0, 0, 0, 0, 0, 0, 0, 0, 0, 0, 0, 0], 27, [0; 4], 22),
                (&index, &all, &[0, 255, 0, 0, 0, 0, 0, 0, 0, 0, 0, 0, 0, 0, 0, 0], 27, [0; 4], 22),
                (&index, &all, &[3, 3, 4, 4, 4, 4, 4, 4, 4, 4, 4, 4, 4, 4, 4, 255], 27, [0; 4], 0),
                // A keyword that does not occur, and no occurrence at all.
                (&index, &first, &[0, 4, 0, 0, 0, 0, 0, 0, 0, 0, 0, 0, 0, 0, 0, 0], 27, [0; 4], 22),
                (&index, &none, &bad, 0, full, 22),
                (&index, &none, &good, 0, full, 0),
                (&index, &all, &good, 27, full, 23),
                (&index, &all, &good, 27, [MOST - 1, 0, 0, 0], 23),
                (&index, &all, &good, 27, [MOST - 2, MOST, 0, 0], 23),
                (&index, &all, &[3; 16], 27, [1, 2, 3, MOST - 2], 23),
                (&index, &all, &good, 27, [MOST - 2, MOST - 1, MOST, MOST], 0),
                (&index, &all, &[3; 16], 30, [MOST, MOST, MOST, MOST - 3], 0),
            ] {
                let (mut count, mut out, mut counts) = (1 << 40, vec![7; room], before);
                assert_eq!(raw::join(index, recipes, key, &mut out, &mut count, &mut counts), want, "{key:?} {before:?}");
                if want != 0 {
                    assert_eq!((count, out, counts), (1 << 40, vec![7; room], before), "{want}");
                }
            }
            assert!(Error::new(22).to_string().starts_with("refused 22: the key is not 16 bytes"));
            assert!(Error::new(23).to_string().contains("18,446,744,073,709,551,615"));
        });
    }

    /// A refused search leaves the tally, whichever part of it refuses.
    #[test]
    fn what_a_search_refuses() {
        with_stack(|| {
            let (list, store, recipes) = small();
            let refused = |key: &[u8], room: usize, rows: usize, before: [u64; 4]| {
                let (mut tally, mut index, mut out) = (Tally { counts: before }, vec![7; room], vec![7; rows]);
                let answer = search_into(&list, &store, &recipes, key, &mut tally, (&mut index, &mut out));
                assert_eq!((tally.counts, &out), (before, &vec![7; rows]));
                answer.unwrap_err()
            };
            let join = |code| SearchError::Join { index_length: 138, error: Error::new(code) };
            assert_eq!(refused(&[4; 16], 137, 0, [MOST; 4]), SearchError::Scan(Error::new(9)));
            assert_eq!(refused(&[4; 16], 138, 26, [MOST; 4]), join(18));
            assert_eq!(refused(&[4; 16], 138, 27, [MOST; 4]), join(22));
            assert_eq!(refused(&[3; 16], 140, 27, [0, 0, 0, MOST - 2]), join(23));
            let mut tally = Tally { counts: [9, MOST, 0, 0] };
            assert_eq!(search(&list, &store, &recipes, &key(&[0, 1]), &mut tally), Err(Error::new(23).into()));
            assert_eq!(tally.counts, [9, MOST, 0, 0]);
        });
    }

    /// A bill: joins of several recipes by several keys into one tally that begins at zero, the refused ones between them adding nothing.
    #[test]
    fn a_bill() {
        with_stack(|| {
            let (list, store, recipes) = small();
            let index = scan(&list, &store).unwrap().index;
            let mut tally = Tally::default();
            let mut join = |recipes: &[u8], clients: &[u8], room: usize| {
                join_into(&index, recipes, &key(clients), &mut tally, &mut vec![0; room])
                    .map(|_| tally.counts)
                    .map_err(|error| error.code)
            };
            assert_eq!(join(&recipes, &[0, 1], 27), Ok([2, 1, 0, 0]));
            assert_eq!(join(&recipes, &[0, 1], 26), Err(18));
            assert_eq!(join(&recipes, &[0, 4], 27), Err(22));
            assert_eq!(join(&recipes[1..], &[0, 1], 27), Err(14));
            assert_eq!(join(&recipes_of(&[&[3, 3, 3], &[2]]), &[3, 1], 27), Ok([2, 3, 0, 1]));
            assert_eq!(join(&recipes_of(&[]), &[2, 2], 0), Ok([2, 3, 0, 1]));
            assert_eq!(join(&recipes, &[2, 2], 27), Ok([2, 3, 3, 1]));
        });
    }

    /// A list longer than the buffer that is tried first: its client has each occurrence once.
    #[test]
    fn a_long_list_is_added_once() {
        with_stack(|| {
            let (store, places) =
                ([&b"DV1\n\x01\0\0\0"[..], &[1; 20], &[36, 0, 0, 0, 0xE8, 3, 0, 0], &[b'A'; 1_000]].concat(), 600);
            let list = crate::keyword_list(false, &[b"B", b"A"]).unwrap();
            let mut tally = Tally::default();
            let found = search(&list, &store, &recipes_of(&[&vec![1; places]]), &key(&[1, 2]), &mut tally).unwrap();
            assert_eq!((found.len(), tally.counts), (600_000, [0, 0, 600_000, 0]));
        });
    }
}
