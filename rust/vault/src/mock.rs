//! The C interface served by the oracle, for work without the proved library. Nothing here is proved.

use oracle::calls;
use std::slice::{from_raw_parts, from_raw_parts_mut};

pub unsafe fn vault_check_keywords(list: *const u8, list_length: usize) -> u8 {
    calls::check_keywords(from_raw_parts(list, list_length))
}

pub unsafe fn vault_check_store(store: *const u8, store_length: usize) -> u8 {
    calls::check_store(from_raw_parts(store, store_length))
}

pub unsafe fn vault_check_index(index: *const u8, index_length: usize) -> u8 {
    calls::check_index(from_raw_parts(index, index_length))
}

pub unsafe fn vault_scan_size(
    list: *const u8,
    list_length: usize,
    store: *const u8,
    store_length: usize,
    length: *mut u64,
) -> u8 {
    calls::scan_size(from_raw_parts(list, list_length), from_raw_parts(store, store_length), &mut *length)
}

#[allow(clippy::too_many_arguments)]
pub unsafe fn vault_scan(
    list: *const u8,
    list_length: usize,
    store: *const u8,
    store_length: usize,
    out: *mut u8,
    out_length: usize,
    length: *mut u64,
    moves: *mut u64,
) -> u8 {
    let out = from_raw_parts_mut(out, out_length);
    calls::scan(from_raw_parts(list, list_length), from_raw_parts(store, store_length), out, (&mut *length, &mut *moves))
}

pub unsafe fn vault_count(
    index: *const u8,
    index_length: usize,
    recipes: *const u8,
    recipes_length: usize,
    count: *mut u64,
) -> u8 {
    calls::count(from_raw_parts(index, index_length), from_raw_parts(recipes, recipes_length), &mut *count)
}

/// A call on the tally behind four pointers: they are read before it and written after it, so that two that are one would show.
unsafe fn lent(clients: [*mut u64; 4], call: impl FnOnce(&mut [u64; 4]) -> u8) -> u8 {
    let mut tally = clients.map(|client| *client);
    let code = call(&mut tally);
    clients.iter().zip(tally).for_each(|(client, count)| **client = count);
    code
}

#[allow(clippy::too_many_arguments)]
pub unsafe fn vault_join(
    index: *const u8,
    index_length: usize,
    recipes: *const u8,
    recipes_length: usize,
    key: *const u8,
    key_length: usize,
    out: *mut u8,
    out_length: usize,
    count: *mut u64,
    client0: *mut u64,
    client1: *mut u64,
    client2: *mut u64,
    client3: *mut u64,
) -> u8 {
    let (index, recipes) = (from_raw_parts(index, index_length), from_raw_parts(recipes, recipes_length));
    let (key, out) = (from_raw_parts(key, key_length), from_raw_parts_mut(out, out_length));
    lent([client0, client1, client2, client3], |tally| calls::join(index, recipes, key, out, &mut *count, tally))
}

pub unsafe fn vault_query_count(
    index: *const u8,
    index_length: usize,
    recipes: *const u8,
    recipes_length: usize,
    query: *const u8,
    query_length: usize,
    lines: *mut u64,
) -> u8 {
    let (index, recipes) = (from_raw_parts(index, index_length), from_raw_parts(recipes, recipes_length));
    calls::query_count(index, recipes, from_raw_parts(query, query_length), &mut *lines)
}

#[allow(clippy::too_many_arguments)]
pub unsafe fn vault_query(
    index: *const u8,
    index_length: usize,
    recipes: *const u8,
    recipes_length: usize,
    query: *const u8,
    query_length: usize,
    out: *mut u8,
    out_length: usize,
    lines: *mut u64,
) -> u8 {
    let (index, recipes) = (from_raw_parts(index, index_length), from_raw_parts(recipes, recipes_length));
    calls::query(index, recipes, from_raw_parts(query, query_length), from_raw_parts_mut(out, out_length), &mut *lines)
}

pub unsafe fn vault_find_chunk(store: *const u8, store_length: usize, key: *const u8, key_length: usize) -> u8 {
    calls::chunk(from_raw_parts(store, store_length), from_raw_parts(key, key_length)).err().unwrap_or(0)
}

pub unsafe fn vault_chunk_start(store: *const u8, store_length: usize, key: *const u8, key_length: usize) -> u64 {
    calls::chunk(from_raw_parts(store, store_length), from_raw_parts(key, key_length)).map_or(0, |place| place.start as u64)
}

pub unsafe fn vault_chunk_length(store: *const u8, store_length: usize, key: *const u8, key_length: usize) -> u64 {
    calls::chunk(from_raw_parts(store, store_length), from_raw_parts(key, key_length)).map_or(0, |place| place.len() as u64)
}

pub unsafe fn vault_find_body(index: *const u8, index_length: usize, key: *const u8, key_length: usize) -> u8 {
    calls::body(from_raw_parts(index, index_length), from_raw_parts(key, key_length)).err().unwrap_or(0)
}

pub unsafe fn vault_body_start(index: *const u8, index_length: usize, key: *const u8, key_length: usize) -> u64 {
    calls::body(from_raw_parts(index, index_length), from_raw_parts(key, key_length)).map_or(0, |place| place.start as u64)
}

pub unsafe fn vault_body_length(index: *const u8, index_length: usize, key: *const u8, key_length: usize) -> u64 {
    calls::body(from_raw_parts(index, index_length), from_raw_parts(key, key_length)).map_or(0, |place| place.len() as u64)
}

pub unsafe fn vault_compact_size(
    store: *const u8,
    store_length: usize,
    recipes: *const u8,
    recipes_length: usize,
    length: *mut u64,
) -> u8 {
    calls::compact_size(from_raw_parts(store, store_length), from_raw_parts(recipes, recipes_length), &mut *length)
}

pub unsafe fn vault_compact(
    store: *const u8,
    store_length: usize,
    recipes: *const u8,
    recipes_length: usize,
    out: *mut u8,
    out_length: usize,
    length: *mut u64,
) -> u8 {
    let out = from_raw_parts_mut(out, out_length);
    calls::compact(from_raw_parts(store, store_length), from_raw_parts(recipes, recipes_length), out, &mut *length)
}

#[allow(clippy::too_many_arguments)]
pub unsafe fn vault_search(
    list: *const u8,
    list_length: usize,
    store: *const u8,
    store_length: usize,
    recipes: *const u8,
    recipes_length: usize,
    key: *const u8,
    key_length: usize,
    index: *mut u8,
    index_buffer_length: usize,
    out: *mut u8,
    out_length: usize,
    index_length: *mut u64,
    count: *mut u64,
    client0: *mut u64,
    client1: *mut u64,
    client2: *mut u64,
    client3: *mut u64,
) -> u8 {
    lent([client0, client1, client2, client3], |tally| {
        calls::search(
            from_raw_parts(list, list_length),
            from_raw_parts(store, store_length),
            from_raw_parts(recipes, recipes_length),
            from_raw_parts(key, key_length),
            (from_raw_parts_mut(index, index_buffer_length), from_raw_parts_mut(out, out_length)),
            (&mut *index_length, &mut *count),
            tally,
        )
    })
}
