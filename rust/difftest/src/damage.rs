//! Faults: in any bytes, and in the fields of each format.

use crate::rng::Rng;
use oracle::form::{Form, KNOWN};

fn put(bytes: &mut [u8], at: usize, number: u32) {
    if at + 4 <= bytes.len() {
        bytes[at..at + 4].copy_from_slice(&number.to_le_bytes());
    }
}

fn get(bytes: &[u8], at: usize) -> u32 {
    match bytes.get(at..at + 4) {
        Some(field) => u32::from_le_bytes([field[0], field[1], field[2], field[3]]),
        None => 0,
    }
}

fn swap(bytes: &mut [u8], a: usize, b: usize, length: usize) {
    if a.max(b) + length <= bytes.len() {
        for k in 0..length {
            bytes.swap(a + k, b + k);
        }
    }
}

/// A number near the old one, or at some border.
fn other(rng: &mut Rng, old: u32, borders: &[u32]) -> u32 {
    match rng.below(5) {
        0 => old.wrapping_add(1),
        1 => old.wrapping_sub(1),
        2 => old.wrapping_add(1 << rng.below(32)),
        _ => *rng.pick(borders),
    }
}

/// A fault that knows no format.
pub fn any(rng: &mut Rng, bytes: &mut Vec<u8>) {
    let n = bytes.len();
    if n == 0 {
        *bytes = rng.bytes(3);
        return;
    }
    let at = rng.below(n);
    match rng.below(12) {
        0..=2 => bytes[at] ^= 1 << rng.below(8),
        3 => bytes[at] = *rng.pick(&[0, 1, 2, 16, 17, 32, 33, 254, 255]),
        4 => bytes.truncate(at),
        5 => bytes.truncate(n - 1),
        6 => {
            let more = rng.range(1, 9);
            bytes.extend(rng.bytes(more));
        }
        7 => {
            bytes.remove(at);
        }
        8 => bytes.insert(at, rng.byte()),
        9 => {
            let to = rng.below(n);
            swap(bytes, at, to, 1);
        }
        10 => {
            let to = rng.below(n) / 4 * 4;
            swap(bytes, at / 4 * 4, to, 4);
        }
        _ => bytes.push(0),
    }
}

pub fn keywords(rng: &mut Rng, list: &mut Vec<u8>) {
    if rng.percent(40) || list.len() < 4 {
        return any(rng, list);
    }
    match rng.below(6) {
        0 => list[0] = *rng.pick(&[0, 1, 2, 15, 16, 17, 255]),
        1 => list[1] = *rng.pick(&[0, 1, 1, 2, 255]),
        2 => list[2] = *rng.pick(&[0, 1, 32, 33, 255]),
        3 => {
            // The first keyword again, perhaps in another case, as the last one.
            let n = usize::from(list[2]).min(list.len() - 3);
            let mut again = list[2..3 + n].to_vec();
            if rng.percent(60) {
                let at = rng.range(1, again.len().max(2) - 1).min(again.len() - 1);
                again[at] ^= 0x20;
            }
            list.extend(again);
            list[0] = list[0].wrapping_add(1);
        }
        4 => {
            list.pop();
        }
        _ => list.push(rng.byte()),
    }
}

/// A fault in a directory of `count` entries of that stride from `start`, whose numbers lie at these places in an entry.
fn directory(rng: &mut Rng, bytes: &mut [u8], start: usize, stride: usize, numbers: &[usize]) {
    let count = (get(bytes, 4) as usize).min(bytes.len() / stride);
    if count == 0 {
        return put(bytes, 4, 1);
    }
    let entry = start + stride * rng.below(count);
    let to = start + stride * rng.below(count);
    match rng.below(8) {
        0..=3 => {
            let at = entry + rng.pick(numbers);
            let borders = [0, 1, 65_535, 65_536, 1_048_576, 1_048_577, 0x7FFF_FFFF, 0x8000_0000, 0xFFFF_FFFE, 0xFFFF_FFFF];
            let new = other(rng, get(bytes, at), &borders);
            put(bytes, at, new);
        }
        4 => swap(bytes, entry, to, stride),
        5 => swap(bytes, entry, to, 20),
        6 => {
            if entry + 20 <= bytes.len() && to + 20 <= bytes.len() {
                bytes.copy_within(entry..entry + 20, to);
            }
        }
        _ => swap(bytes, entry + numbers[0], entry + numbers[1], 4),
    }
}

pub fn store(rng: &mut Rng, store: &mut Vec<u8>) {
    match rng.below(10) {
        0..=2 => any(rng, store),
        3 => {
            let new = other(rng, get(store, 4), &[0, 1, 65_000, 65_001, 0x0924_924A, 0x8000_0000, 0xFFFF_FFFF]);
            put(store, 4, new);
        }
        4 if store.len() >= 4 => store[rng.below(4)] ^= 1 << rng.below(8),
        _ => directory(rng, store, 8, 28, &[20, 24]),
    }
}

/// A good store with a chunk that begins in the one before or in the directory, one that is longer or shorter, a store that ends in its last
/// chunk, fewer entries than there are chunks, or an entry at another one's place.
pub fn borders(rng: &mut Rng, store: &mut Vec<u8>) {
    let count = get(store, 4) as usize;
    let entry = |k: usize| (8 + 28 * k + 20, 8 + 28 * k + 24);
    let end = |store: &[u8], k: usize| get(store, entry(k).0) + get(store, entry(k).1);
    if count == 0 || rng.percent(10) {
        put(store, 4, rng.below(count + 1) as u32);
        let more = rng.below(40);
        return store.extend(rng.bytes(more));
    }
    let k = rng.below(count);
    let (offset, length) = entry(k);
    let before = if k == 0 { 8 + 28 * count as u32 } else { end(store, k - 1) };
    let near = rng.below(3) as u32;
    match rng.below(6) {
        // At the end of the one before or of the directory, and up to two bytes before it.
        0..=1 => put(store, offset, before - near),
        2 => put(store, offset, rng.below(before as usize) as u32),
        // The chunk ends where the next one begins, or beside it; the last one where the store ends.
        3 => {
            let next = if k + 1 < count { get(store, entry(k + 1).0) } else { store.len() as u32 };
            let new = (next + 1).saturating_sub(get(store, offset) + near);
            put(store, length, new);
        }
        4 => {
            let last = end(store, count - 1) as usize;
            store.resize(last + 1 - near as usize, b'A');
        }
        _ => {
            let other = get(store, entry(rng.below(count)).0);
            put(store, offset, other);
        }
    }
}

/// `list` is the length of the keyword list in the index.
pub fn index(rng: &mut Rng, index: &mut Vec<u8>, list: usize) {
    let start = 8 + list;
    match rng.below(12) {
        0..=2 => any(rng, index),
        3 => {
            let new = other(rng, get(index, 4), &[0, 1, 65_000, 65_001, 0x0800_0000, 0xFFFF_FFFF]);
            put(index, 4, new);
        }
        // Another mark: any, or one that is known.
        4 if index.len() >= 4 && rng.percent(50) => index[rng.below(4)] ^= 1 << rng.below(8),
        4 if index.len() >= 4 => index[..4].copy_from_slice(&rng.pick(&KNOWN).mark),
        5 if index.len() > start => {
            let at = rng.range(8, start - 1);
            index[at] = *rng.pick(&[0, 1, 2, 17, 32, 33, 0x41, 0x61]);
        }
        6 if index.len() > start => {
            let at = rng.range(start, index.len() - 1);
            index[at] ^= 1 << rng.below(8);
        }
        7 => {
            let length = index.len();
            index.truncate(rng.range(0, start.min(length)));
        }
        _ => directory(rng, index, start, 32, &[20, 24, 28]),
    }
}

pub fn recipes(rng: &mut Rng, recipes: &mut Vec<u8>) {
    match rng.below(8) {
        0..=2 => any(rng, recipes),
        3 => {
            let new = other(rng, get(recipes, 0), &[0, 1, 65_535, 65_536, 0x8000_0000, 0xFFFF_FFFF]);
            put(recipes, 0, new);
        }
        4..=5 => {
            // The chunk count of some file.
            let mut at = 4;
            for _ in 0..rng.below(4) {
                let next = at + 4 + 20 * get(recipes, at) as usize;
                if next + 4 <= recipes.len() {
                    at = next;
                }
            }
            let new = other(rng, get(recipes, at), &[0, 1, 0x0CCC_CCCD, 0x4000_0000, 0x4000_0001, 0x8000_0000, 0xFFFF_FFFF]);
            put(recipes, at, new);
        }
        6 => {
            let at = rng.below(recipes.len().max(1));
            if let Some(byte) = recipes.get_mut(at) {
                *byte ^= 1 << rng.below(8);
            }
        }
        _ => recipes.push(rng.byte()),
    }
}

/// A fault in one body, which the directory then says rightly.
pub fn body(rng: &mut Rng, form: &Form, body: &mut Vec<u8>) {
    if body.is_empty() {
        let length = rng.range(1, 8);
        *body = (0..length).map(|_| *rng.pick(&[0, 0, 1, 2, 3, 255])).collect();
        return;
    }
    let n = body.len();
    let at = rng.below(n.min(12));
    match rng.below(9) {
        0..=3 => body[at] = *rng.pick(&[0, 1, 2, 3, 4, 31, 254, 255]),
        4 => body[at] = body[at].wrapping_add(1),
        5 => body[at] = body[at].wrapping_sub(1),
        6 => {
            let again = body.clone();
            body.extend(again);
        }
        7 => swap(body, n.saturating_sub(2 * form.width), n.saturating_sub(form.width), form.width),
        _ => any(rng, body),
    }
}
