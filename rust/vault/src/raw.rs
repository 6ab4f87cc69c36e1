//! The C interface as safe functions, and no more: codes as they come, numbers lent by the caller. `lib.rs` has the ones to use.

use crate::clients::CLIENTS;
use crate::ffi;

pub fn check_keywords(list: &[u8]) -> u8 {
    // SAFETY: here and below, each pointer is a slice's or a number's, with the slice's own length, and Rust's borrows
    // keep what is written apart from everything else that is passed.
    unsafe { ffi::vault_check_keywords(list.as_ptr(), list.len()) }
}

pub fn check_store(store: &[u8]) -> u8 {
    unsafe { ffi::vault_check_store(store.as_ptr(), store.len()) }
}

pub fn check_index(index: &[u8]) -> u8 {
    unsafe { ffi::vault_check_index(index.as_ptr(), index.len()) }
}

pub fn scan_size(list: &[u8], store: &[u8], length: &mut u64) -> u8 {
    unsafe { ffi::vault_scan_size(list.as_ptr(), list.len(), store.as_ptr(), store.len(), length) }
}

/// The index's length and the moves.
pub fn scan(list: &[u8], store: &[u8], out: &mut [u8], (length, moves): (&mut u64, &mut u64)) -> u8 {
    let (l, n, s, m) = (list.as_ptr(), list.len(), store.as_ptr(), store.len());
    unsafe { ffi::vault_scan(l, n, s, m, out.as_mut_ptr(), out.len(), length, moves) }
}

pub fn count(index: &[u8], recipes: &[u8], count: &mut u64) -> u8 {
    unsafe { ffi::vault_count(index.as_ptr(), index.len(), recipes.as_ptr(), recipes.len(), count) }
}

/// The four counts of a tally pass one by one: Rust's borrow of the array keeps them apart from each other and from the rest.
pub fn join(index: &[u8], recipes: &[u8], key: &[u8], out: &mut [u8], count: &mut u64, counts: &mut [u64; CLIENTS]) -> u8 {
    let [client0, client1, client2, client3] = counts;
    unsafe {
        ffi::vault_join(
            index.as_ptr(),
            index.len(),
            recipes.as_ptr(),
            recipes.len(),
            key.as_ptr(),
            key.len(),
            out.as_mut_ptr(),
            out.len(),
            count,
            client0,
            client1,
            client2,
            client3,
        )
    }
}

pub fn query_count(index: &[u8], recipes: &[u8], query: &[u8], lines: &mut u64) -> u8 {
    let (i, n, r, m) = (index.as_ptr(), index.len(), recipes.as_ptr(), recipes.len());
    unsafe { ffi::vault_query_count(i, n, r, m, query.as_ptr(), query.len(), lines) }
}

pub fn query(index: &[u8], recipes: &[u8], query: &[u8], out: &mut [u8], lines: &mut u64) -> u8 {
    let (i, n, r, m) = (index.as_ptr(), index.len(), recipes.as_ptr(), recipes.len());
    unsafe { ffi::vault_query(i, n, r, m, query.as_ptr(), query.len(), out.as_mut_ptr(), out.len(), lines) }
}

/// Code, start and length.
pub fn chunk(store: &[u8], key: &[u8]) -> (u8, u64, u64) {
    let (s, n, k, m) = (store.as_ptr(), store.len(), key.as_ptr(), key.len());
    unsafe { (ffi::vault_find_chunk(s, n, k, m), ffi::vault_chunk_start(s, n, k, m), ffi::vault_chunk_length(s, n, k, m)) }
}

/// Code, start and length.
pub fn body(index: &[u8], key: &[u8]) -> (u8, u64, u64) {
    let (i, n, k, m) = (index.as_ptr(), index.len(), key.as_ptr(), key.len());
    unsafe { (ffi::vault_find_body(i, n, k, m), ffi::vault_body_start(i, n, k, m), ffi::vault_body_length(i, n, k, m)) }
}

pub fn compact_size(store: &[u8], recipes: &[u8], length: &mut u64) -> u8 {
    unsafe { ffi::vault_compact_size(store.as_ptr(), store.len(), recipes.as_ptr(), recipes.len(), length) }
}

pub fn compact(store: &[u8], recipes: &[u8], out: &mut [u8], length: &mut u64) -> u8 {
    let (s, n, r, m) = (store.as_ptr(), store.len(), recipes.as_ptr(), recipes.len());
    unsafe { ffi::vault_compact(s, n, r, m, out.as_mut_ptr(), out.len(), length) }
}

/// Scan and join: the buffers of the index and the list, the index's length and the count, the tally's counts.
pub fn search(
    list: &[u8],
    store: &[u8],
    recipes: &[u8],
    key: &[u8],
    (index, out): (&mut [u8], &mut [u8]),
    (index_length, count): (&mut u64, &mut u64),
    counts: &mut [u64; CLIENTS],
) -> u8 {
    let [client0, client1, client2, client3] = counts;
    unsafe {
        ffi::vault_search(
            list.as_ptr(),
            list.len(),
            store.as_ptr(),
            store.len(),
            recipes.as_ptr(),
            recipes.len(),
            key.as_ptr(),
            key.len(),
            index.as_mut_ptr(),
            index.len(),
            out.as_mut_ptr(),
            out.len(),
            index_length,
            count,
            client0,
            client1,
            client2,
            client3,
        )
    }
}
