//! The C interface of the Rattle crate `vault_c`: every declaration of the workspace is here, as `include/vault.h` has them.
//!
//! A slice passes as its pointer and its length; a number is written through a pointer, and stays as it was on a refusal
//! (where a search's scan is done and its join refuses, the index's length is written). A tally's four counts are four pointers,
//! which are added to. With the feature `mock` the same
//! names come from the oracle (`mock.rs`).

#[cfg(not(feature = "mock"))]
extern "C" {
    pub fn vault_check_keywords(list: *const u8, list_length: usize) -> u8;
    pub fn vault_check_store(store: *const u8, store_length: usize) -> u8;
    pub fn vault_check_index(index: *const u8, index_length: usize) -> u8;
    pub fn vault_scan_size(list: *const u8, list_length: usize, store: *const u8, store_length: usize, length: *mut u64) -> u8;
    pub fn vault_scan(
        list: *const u8,
        list_length: usize,
        store: *const u8,
        store_length: usize,
        out: *mut u8,
        out_length: usize,
        length: *mut u64,
        moves: *mut u64,
    ) -> u8;
    pub fn vault_count(index: *const u8, index_length: usize, recipes: *const u8, recipes_length: usize, count: *mut u64) -> u8;
    pub fn vault_join(
        index: *const u8,
        index_length: usize,
        recipes: *const u8,
        recipes_length: usize,
        key: *const u8,
        key_length: usize,
        out: *mut u8,
        out_length: usize,
        count: *mut u64,
        client0: *mut u64,
        client1: *mut u64,
        client2: *mut u64,
        client3: *mut u64,
    ) -> u8;
    pub fn vault_query_count(
        index: *const u8,
        index_length: usize,
        recipes: *const u8,
        recipes_length: usize,
        query: *const u8,
        query_length: usize,
        lines: *mut u64,
    ) -> u8;
    pub fn vault_query(
        index: *const u8,
        index_length: usize,
        recipes: *const u8,
        recipes_length: usize,
        query: *const u8,
        query_length: usize,
        out: *mut u8,
        out_length: usize,
        lines: *mut u64,
    ) -> u8;
    pub fn vault_find_chunk(store: *const u8, store_length: usize, key: *const u8, key_length: usize) -> u8;
    pub fn vault_chunk_start(store: *const u8, store_length: usize, key: *const u8, key_length: usize) -> u64;
    pub fn vault_chunk_length(store: *const u8, store_length: usize, key: *const u8, key_length: usize) -> u64;
    pub fn vault_find_body(index: *const u8, index_length: usize, key: *const u8, key_length: usize) -> u8;
    pub fn vault_body_start(index: *const u8, index_length: usize, key: *const u8, key_length: usize) -> u64;
    pub fn vault_body_length(index: *const u8, index_length: usize, key: *const u8, key_length: usize) -> u64;
    pub fn vault_compact_size(
        store: *const u8,
        store_length: usize,
        recipes: *const u8,
        recipes_length: usize,
        length: *mut u64,
    ) -> u8;
    pub fn vault_compact(
        store: *const u8,
        store_length: usize,
        recipes: *const u8,
        recipes_length: usize,
        out: *mut u8,
        out_length: usize,
        length: *mut u64,
    ) -> u8;
    pub fn vault_search(
        list: *const u8,
        list_length: usize,
        store: *const u8,
        store_length: usize,
        recipes: *const u8,
        recipes_length: usize,
        key: *const u8,
        key_length: usize,
        index: *mut u8,
        index_buffer_length: usize,
        out: *mut u8,
        out_length: usize,
        index_length: *mut u64,
        count: *mut u64,
        client0: *mut u64,
        client1: *mut u64,
        client2: *mut u64,
        client3: *mut u64,
    ) -> u8;
}

#[cfg(feature = "mock")]
pub use crate::mock::*;

#[cfg(not(target_pointer_width = "64"))]
compile_error!("the static library is for x86-64: lengths are 64 bits");
