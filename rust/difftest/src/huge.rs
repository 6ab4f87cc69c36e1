//! The sizes at which 32 bits end: chunks up to the greatest end, holes, indexes, moves and bounds around 4,294,967,295, and compactions of
//! such stores. Steps 1 to 9 and 12 want some 5 GB of memory, so these run only when asked for (`--huge`). With the feature `mock` steps 3 to 6 hold the
//! oracle's records too and want some 20 GB: there name another step. Of the holes of steps 10 and 11 nobody touches a page.

use crate::inputs::list;
use crate::{beyond, fixed};
use oracle::form::{Form, FORM1, NEWEST};
use oracle::moves::Trie;
use oracle::records::{encode_body, records_of};
use oracle::{calls, index, keywords, recipes, store, Fingerprint, U32};
use std::collections::HashMap;
use vault::raw;

type Verdict = Result<(), String>;

fn same<T: PartialEq + std::fmt::Debug>(what: &str, got: T, want: T) -> Verdict {
    if got == want {
        println!("  {what}: {got:?}");
        Ok(())
    } else {
        Err(format!("{what}: {got:?}, expected {want:?}"))
    }
}

fn key(k: usize) -> Fingerprint {
    let mut key = [0xC3; 20];
    key[5..13].copy_from_slice(&(k as u64).wrapping_mul(0x9E37_79B9_7F4A_7C15).to_le_bytes());
    key
}

/// What a number holds before a call.
const UNTOLD: u64 = 0xA5A5_A5A5_A5A5_A5A5;

/// The first three keywords are three clients'; there are no more here.
const KEY: [u8; 16] = [3, 1, 2, 9, 9, 9, 9, 9, 9, 9, 9, 9, 9, 9, 9, 9];

/// A call's code and number.
fn answer(call: impl FnOnce(&mut u64) -> u8) -> (u8, u64) {
    let mut number = UNTOLD;
    (call(&mut number), number)
}

/// A scan's code, the index's length and the moves.
fn scan(words: &[u8], store: &[u8], out: &mut [u8]) -> (u8, u64, u64) {
    let (mut length, mut moves) = (UNTOLD, UNTOLD);
    (raw::scan(words, store, out, (&mut length, &mut moves)), length, moves)
}

/// What a refused scan gives.
const TOO_LONG: (u8, u64, u64) = (9, UNTOLD, UNTOLD);

/// All steps, or the one of that number from 1.
pub fn run(step: u64) -> Verdict {
    let steps: [fn() -> Verdict; 12] = [
        || longest_store(4_096),
        || longest_store(65_000),
        || longest_index(0),
        || longest_index(1),
        || longer_than_a_scan_writes(&FORM1),
        || longer_than_a_scan_writes(&NEWEST),
        moves_past_32_bits,
        || longest_bound(0),
        || longest_bound(1),
        holes_behind,
        hole_between,
        long_compaction,
    ];
    steps.iter().zip(1..).filter(|(_, number)| step == 0 || step == *number).try_for_each(|(run, _)| run())
}

/// The longest chunk.
const LONGEST: usize = NEWEST.longest_chunk as usize;

/// The length of chunk k of so many, which without holes end at 4,294,967,295.
fn most_of(count: usize, k: usize) -> usize {
    let data = U32 as usize - 8 - 28 * count;
    data / count + usize::from(k < data % count)
}

/// The store of these chunks, with room for a byte more.
fn most_bytes(count: usize) -> Vec<u8> {
    let mut bytes = Vec::with_capacity(U32 as usize + 1);
    bytes.extend_from_slice(&store::MARK);
    bytes.extend_from_slice(&(count as u32).to_le_bytes());
    let mut offset = 8 + 28 * count;
    for k in 0..count {
        bytes.extend_from_slice(&key(k));
        bytes.extend_from_slice(&(offset as u32).to_le_bytes());
        bytes.extend_from_slice(&(most_of(count, k) as u32).to_le_bytes());
        offset += most_of(count, k);
    }
    let mut state = 1u32;
    for k in 0..count {
        // Nothing but its first letter (two moves a byte), a keyword at a random place, one over the first window's end, and half a keyword
        // at one end.
        let (start, size) = (bytes.len(), most_of(count, k));
        bytes.resize(start + size, b'c');
        state = state.wrapping_mul(1_664_525).wrapping_add(1_013_904_223);
        let at = start + 3 + (state >> 8) as usize % (size - 10);
        bytes[at..at + 4].copy_from_slice(b"cash");
        bytes[start + 65_534..start + 65_538].copy_from_slice(b"cash");
        match k % 2 {
            0 => bytes[start + size - 2..].copy_from_slice(b"ca"),
            _ => bytes[start..start + 2].copy_from_slice(b"sh"),
        }
    }
    bytes
}

/// So many chunks without holes, of equal lengths but for a byte, up to 4,294,967,295. 4,096 are as few as there can be, 65,000 the most,
/// and each of them is longer than 65,535 bytes.
fn longest_store(count: usize) -> Verdict {
    println!("the most bytes of chunks, in {count} chunks");
    let size = |k: usize| most_of(count, k);
    same("the longest of its chunks is allowed, and longer than 65,535", (65_536..=LONGEST).contains(&size(0)), true)?;
    let mut bytes = most_bytes(count);
    same("length", bytes.len() as u64, U32)?;
    let words = list(false, &[b"cash"]);
    same("store check", raw::check_store(&bytes), 0)?;
    same("store check, a byte short", raw::check_store(&bytes[..bytes.len() - 1]), 7)?;
    let want = calls::index_of(&words, &bytes).map_err(|code| format!("the oracle refuses with {code}"))?;
    same("scan_size", answer(|length| raw::scan_size(&words, &bytes, length)), (0, want.len() as u64))?;
    let mut out = vec![0xEE; want.len() + 5];
    let moves = calls::moves_of(&words, &bytes).map_err(|code| format!("the oracle refuses with {code}"))?;
    same("more moves than 32 bits hold", moves > U32, true)?;
    same("scan", scan(&words, &bytes, &mut out), (0, want.len() as u64, moves))?;
    same("the index is the oracle's", out[..want.len()] == want && out[want.len()..] == [0xEE; 5], true)?;
    let last = size(count - 1) as u64;
    same("last chunk", raw::chunk(&bytes, &key(count - 1)), (0, U32 - last, last))?;
    // One file of all chunks, backwards: offsets up to 4,294,852,599.
    let files = [(0..count).rev().map(key).collect::<Vec<_>>(), vec![key(0); 2]];
    let recipes = recipes::encode(&files);
    let mut expected = vec![0; 9 * 240_000];
    let mut tallies = [[1, 2, 3, 4]; 2];
    let joined = answer(|count| calls::join(&want, &recipes, &KEY, &mut expected, count, &mut tallies[0]));
    expected.truncate(9 * joined.1 as usize);
    let mut out = vec![0xEE; expected.len()];
    same("join", answer(|count| raw::join(&want, &recipes, &KEY, &mut out, count, &mut tallies[1])), joined)?;
    same("the list is the oracle's", out == expected, true)?;
    same("the tally", tallies[1], tallies[0])?;
    compacted(&bytes, count, &recipes)?;
    let twin = 8 + 28 * (count - 1);
    bytes.copy_within(8..28, twin);
    same("store check, twins at both ends", raw::check_store(&bytes), 8)?;
    // A byte behind the last chunk is a hole, and the last chunk with that byte ends beyond.
    bytes.push(b'c');
    same("store check, twins and a byte behind", raw::check_store(&bytes), 8)?;
    bytes[twin + 24..twin + 28].copy_from_slice(&(last as u32 + 1).to_le_bytes());
    same("store check, an end of 4,294,967,296", raw::check_store(&bytes), 20)?;
    same("scan, an end of 4,294,967,296", scan(&words, &bytes, &mut [0; 9]), (20, UNTOLD, UNTOLD))
}

/// Compactions of that store for recipes that name every chunk, all but the first, and the last one.
fn compacted(bytes: &[u8], count: usize, all: &[u8]) -> Verdict {
    let (first, last) = (most_of(count, 0), most_of(count, count - 1));
    same("compact_size, all chunks", answer(|length| raw::compact_size(bytes, all, length)), (0, U32))?;
    same("compact, all chunks, a short buffer", answer(|length| raw::compact(bytes, all, &mut [0; 99], length)), (9, UNTOLD))?;
    let but_one = recipes::encode(&[(1..count).rev().map(key).collect::<Vec<_>>()]);
    same("compact_size, all but the first", answer(|n| raw::compact_size(bytes, &but_one, n)), (0, U32 - 28 - first as u64))?;
    let (one, length) = (recipes::encode(&[vec![key(count - 1); 3]]), 36 + last);
    let mut out = vec![0xEE; length + 3];
    same("compact, the last chunk", answer(|n| raw::compact(bytes, &one, &mut out, n)), (0, length as u64))?;
    let want = store::encode(&[(key(count - 1), &bytes[bytes.len() - last..])]);
    same("it is the oracle's", out[..length] == want && out[length..] == [0xEE; 3], true)
}

/// A new store of more than 2,147,483,648 bytes: all chunks but the first, named backwards, of a store with a byte before each.
fn long_compaction() -> Verdict {
    println!("a compaction of more than 2,147,483,648 bytes");
    let count = 2_060;
    let (old, new) = (|k: usize| 9 + 28 * count + k * (LONGEST + 1), |k: usize| 8 + 28 * (count - 1) + (k - 1) * LONGEST);
    let directory = |first: usize, start: &dyn Fn(usize) -> usize| {
        let mut bytes = [store::MARK, ((count - first) as u32).to_le_bytes()].concat();
        for k in first..count {
            bytes.extend([&key(k)[..], &(start(k) as u32).to_le_bytes(), &(LONGEST as u32).to_le_bytes()].concat());
        }
        bytes
    };
    let mut bytes = directory(0, &old);
    bytes.reserve_exact(count * (LONGEST + 1));
    for k in 0..count {
        bytes.push(0xEE);
        bytes.extend_from_slice(&(k as u32).to_le_bytes());
        bytes.resize(old(k) + LONGEST, k as u8);
    }
    let recipes = recipes::encode(&[(1..count).rev().map(key).collect::<Vec<_>>(), vec![key(5); 2]]);
    let length = new(count);
    same("compact_size", answer(|told| raw::compact_size(&bytes, &recipes, told)), (0, length as u64))?;
    let mut out = vec![0; length + 3];
    let short = answer(|told| raw::compact(&bytes, &recipes, &mut out[..length - 1], told));
    same("compact, a byte short", short, (9, UNTOLD))?;
    same("nothing is written", out.iter().all(|b| *b == 0), true)?;
    same("compact", answer(|told| raw::compact(&bytes, &recipes, &mut out, told)), (0, length as u64))?;
    same("the directory", out.starts_with(&directory(1, &new)), true)?;
    same("the chunks", (1..count).all(|k| out[new(k)..][..LONGEST] == bytes[old(k)..][..LONGEST]), true)?;
    same("bytes behind", &out[length..], &[0; 3])?;
    same("store check", raw::check_store(&out[..length]), 0)?;
    same("last chunk", raw::chunk(&out[..length], &key(count - 1)), (0, new(count - 1) as u64, LONGEST as u64))
}

/// A .. A, 16 times over: every keyword at nearly every place.
fn keywords() -> Vec<u8> {
    let words: Vec<Vec<u8>> = (1..=16).map(|n| vec![b'A'; n]).collect();
    list(false, &words.iter().map(|w| &w[..]).collect::<Vec<_>>())
}

/// A store whose index has 4,294,967,295 bytes and `more`.
///
/// With these keywords L times A makes an entry and a body of 48 x L - 152 bytes (L from 300), xAx one of 40, and Ax one of 85.
fn longest_index(more: u64) -> Verdict {
    println!("an index of 4,294,967,295 + {more} bytes");
    let words = keywords();
    let left = U32 + more - 8 - words.len() as u64;
    // 90 chunks of A, each 48 x (L - 3) - 8; some Ax up to a multiple of 8, and some xAx up to one of 48.
    let count = 90;
    let pairs = (0..8).find(|pairs| (left - 85 * pairs) % 8 == 0).expect("85 is odd");
    let rest = |odd: u64| left - 85 * pairs + 8 * count - 40 * odd;
    let odd = (1..=6).find(|odd| rest(*odd) % 48 == 0).expect("5 and 6 have no common factor");
    let lengths = rest(odd) / 48;
    let mut chunks: Vec<(Fingerprint, Vec<u8>)> = Vec::new();
    for k in 0..count {
        let size = lengths / count + u64::from(k < lengths % count) + 3;
        chunks.push((key(chunks.len()), vec![b'A'; size as usize]));
    }
    let first = chunks[0].1.len() as u64;
    (0..pairs).for_each(|_| chunks.push((key(chunks.len()), b"Ax".to_vec())));
    (0..odd).for_each(|_| chunks.push((key(chunks.len()), b"xAx".to_vec())));
    let bytes = store::encode(&chunks);
    same("scan_size", answer(|length| raw::scan_size(&words, &bytes, length)), (0, U32 + more))?;
    let mut out = vec![0; (U32 + more) as usize + 3];
    if more > 0 {
        same("scan", scan(&words, &bytes, &mut out), TOO_LONG)?;
        return same("nothing is written", out.iter().all(|b| *b == 0), true);
    }
    same("scan, a byte short", scan(&words, &bytes, &mut out[..U32 as usize - 1]), TOO_LONG)?;
    // The oracle's bodies, each once.
    let read = keywords::read(&words).map_err(|code| format!("the oracle refuses with {code}"))?;
    let moves = calls::moves_of(&words, &bytes).map_err(|code| format!("the oracle refuses with {code}"))?;
    same("scan", scan(&words, &bytes, &mut out), (0, U32, moves))?;
    let mut bodies: HashMap<&[u8], Vec<u8>> = HashMap::new();
    let mut at = 8 + words.len() + 32 * chunks.len();
    for (_, chunk) in &chunks {
        let body = bodies.entry(chunk).or_insert_with(|| encode_body(&NEWEST, &records_of(&read, chunk)));
        if out[at..at + body.len()] != body[..] {
            return Err(format!("the body at {at} is not the oracle's"));
        }
        at += body.len();
    }
    same("the bodies are the oracle's, and end", at as u64, U32)?;
    same("bytes behind", &out[U32 as usize..], &[0, 0, 0])?;
    out.truncate(U32 as usize);
    let last = chunks.len() - 1;
    same("index check", raw::check_index(&out), 0)?;
    same("last body", raw::body(&out, &key(last)), (0, U32 - 8, 8))?;
    // Over 16 keywords, L times A has 16 x L - 120 occurrences.
    let recipes = recipes::encode(&[vec![key(last), key(0), key(last)]]);
    same("count", answer(|count| raw::count(&out, &recipes, count)), (0, 16 * first - 120 + 2))
}

/// No scan writes it, but an index of either mark may end beyond 32 bits as long as its last body starts within them.
fn longer_than_a_scan_writes(form: &Form) -> Verdict {
    println!("an index that ends beyond 4,294,967,295, mark {}", form.mark[..3].escape_ascii());
    let words = keywords();
    let read = keywords::read(&words).map_err(|code| format!("the oracle refuses with {code}"))?;
    let size = form.longest_chunk;
    let body = encode_body(form, &records_of(&read, &vec![b'A'; size as usize]));
    let count = (U32 / body.len() as u64) as usize + 1;
    let entries: Vec<(Fingerprint, u64, &[u8])> = (0..count).map(|k| (key(k), size, &body[..])).collect();
    let bytes = index::encode(form, &words, &entries);
    let end = bytes.len() as u64;
    same("it ends beyond", end > U32 && end - (body.len() as u64) < U32, true)?;
    same("index check", raw::check_index(&bytes), 0)?;
    same("last body", raw::body(&bytes, &key(count - 1)), (0, end - body.len() as u64, body.len() as u64))?;
    let recipes = recipes::encode(&[vec![key(count - 1), key(0)]]);
    // Two chunks of A, and what crosses: n - 1 starts for a keyword of n.
    same("count", answer(|count| raw::count(&bytes, &recipes, count)), (0, 2 * (16 * size - 120) + 120))?;
    same("index check, a byte short", raw::check_index(&bytes[..bytes.len() - 1]), 11)?;
    // One more entry's offset would not fit 4 bytes: it is wrong, whatever it says, and no 20.
    let entries: Vec<(Fingerprint, u64, &[u8])> =
        (0..=count).map(|k| (key(k), size, if k < count { &body[..] } else { &[] })).collect();
    drop(bytes);
    same("index check, an offset past 32 bits", raw::check_index(&index::encode(form, &words, &entries)), 11)
}

/// Two moves for each byte of 2,149,580,800 but for the chunks' first ones.
fn moves_past_32_bits() -> Verdict {
    println!("moves past 32 bits");
    let (words, count) = (list(false, &[b"ab"]), 2_050);
    let chunk = vec![b'a'; LONGEST];
    let bytes = store::encode(&(0..count).map(|k| (key(k), &chunk[..])).collect::<Vec<_>>());
    let read = keywords::read(&words).map_err(|code| format!("the oracle refuses with {code}"))?;
    let moves = count as u64 * Trie::new(&read).moves(&chunk);
    same("moves by the oracle", moves, 2_050 * (2 * LONGEST as u64 - 1))?;
    same("they pass 32 bits", moves > U32, true)?;
    let body = encode_body(&NEWEST, &records_of(&read, &chunk));
    let want = index::encode(&NEWEST, &words, &(0..count).map(|k| (key(k), LONGEST as u64, &body[..])).collect::<Vec<_>>());
    let mut out = vec![0xEE; want.len()];
    same("scan", scan(&words, &bytes, &mut out), (0, want.len() as u64, moves))?;
    same("the index is the oracle's", out == want, true)?;
    same("scan, a byte short", scan(&words, &bytes, &mut out[1..]), TOO_LONG)
}

/// A store whose scan has a bound of 4,294,967,295 and `more`, in buffers of about that length: from there on the library may not
/// leave the measuring out.
fn longest_bound(more: u64) -> Verdict {
    println!("a bound of 4,294,967,295 + {more}");
    let words = list(false, &[b"ab"]);
    // The bound is 32 + list + 133 x count + 3 x bytes of chunks.
    let count = 1_367 + more;
    let data = (U32 + more - 32 - words.len() as u64 - 133 * count) / 3;
    let (size, longer) = (data / count, data % count);
    let read = keywords::read(&words).map_err(|code| format!("the oracle refuses with {code}"))?;
    let trie = Trie::new(&read);
    // Four kinds of chunks: two lengths, without and with the keyword at its end.
    let kinds: Vec<(Vec<u8>, Vec<u8>, u64)> = (0..4)
        .map(|kind| {
            let mut chunk = vec![b'a'; (size + kind % 2) as usize];
            *chunk.last_mut().expect("it isn't empty") = if kind < 2 { b'a' } else { b'b' };
            let (body, moves) = (encode_body(&NEWEST, &records_of(&read, &chunk)), trie.moves(&chunk));
            (chunk, body, moves)
        })
        .collect();
    let kind = |k: u64| &kinds[usize::from(k < longer) + if k % 3 == 0 { 2 } else { 0 }];
    let bytes = store::encode(&(0..count).map(|k| (key(k as usize), &kind(k).0[..])).collect::<Vec<_>>());
    same("the bound", vault::scan_bound(&words, &bytes), U32 + more)?;
    let entries: Vec<(Fingerprint, u64, &[u8])> =
        (0..count).map(|k| (key(k as usize), kind(k).0.len() as u64, &kind(k).1[..])).collect();
    let want = index::encode(&NEWEST, &words, &entries);
    let told = (0, want.len() as u64, (0..count).map(|k| kind(k).2).sum());
    for length in [U32 - 1, U32, U32 + 1] {
        // Pages that nobody writes to are not there.
        let mut out = vec![0; length as usize];
        same(&format!("scan into {length} bytes"), scan(&words, &bytes, &mut out), told)?;
        let (front, rest) = out.split_at(want.len());
        same("the index is the oracle's, and no byte behind it", front == want && rest.iter().all(|b| *b == 0), true)?;
    }
    Ok(())
}

/// Chunks with a keyword, its front and its rest, and a zero as the holes have them.
const PIECES: [&[u8]; 2] = [b"cash\0ca", b"sh\0cash"];

/// A store of these two chunks at these offsets, with zeros elsewhere, up to that length. Pages of zeros are there when they are touched.
fn sparse(offsets: [u64; 2], length: u64) -> Vec<u8> {
    let mut bytes = vec![0; length as usize];
    let head = beyond::entries(&[(offsets[0], PIECES[0].len() as u64), (offsets[1], PIECES[1].len() as u64)]);
    bytes[..head.len()].copy_from_slice(&head);
    for (offset, piece) in offsets.iter().zip(PIECES) {
        bytes[*offset as usize..][..piece.len()].copy_from_slice(piece);
    }
    bytes
}

/// Every call on such a store, beside the oracle on the same chunks without holes.
fn as_without_holes(offsets: [u64; 2], bytes: &[u8]) -> Verdict {
    let keys = [0, 1].map(fixed::key);
    let words = list(false, &[b"cash", b"\0", b"\0\0"]);
    let plain = store::encode(&[(keys[0], PIECES[0]), (keys[1], PIECES[1])]);
    let recipes = recipes::encode(&[vec![keys[0], keys[1]], vec![keys[1], keys[0]]]);
    let refused = |code| format!("the oracle refuses with {code}");
    let want = calls::index_of(&words, &plain).map_err(refused)?;
    let moves = calls::moves_of(&words, &plain).map_err(refused)?;
    same("store check", raw::check_store(bytes), 0)?;
    same("scan_size", answer(|length| raw::scan_size(&words, bytes, length)), (0, want.len() as u64))?;
    for length in [want.len(), 5_000] {
        let mut out = vec![0xEE; length];
        same("scan", scan(&words, bytes, &mut out), (0, want.len() as u64, moves))?;
        same("the index", out[..want.len()] == want && out[want.len()..].iter().all(|b| *b == 0xEE), true)?;
    }
    same("scan, a byte short", scan(&words, bytes, &mut vec![0xEE; want.len() - 1]), TOO_LONG)?;
    for (k, piece) in PIECES.iter().enumerate() {
        same("chunk", raw::chunk(bytes, &keys[k]), (0, offsets[k], piece.len() as u64))?;
    }
    same("chunk that isn't there", raw::chunk(bytes, &fixed::key(2)), (15, 0, 0))?;
    let (mut index, mut out, mut expected) = (vec![0xEE; want.len()], vec![0xEE; 200], vec![0xEE; 200]);
    let mut tallies = [[u64::MAX - 40; 4]; 2];
    let joined = answer(|count| calls::join(&want, &recipes, &KEY, &mut expected, count, &mut tallies[0]));
    let (mut length, mut count) = (UNTOLD, UNTOLD);
    let (buffers, numbers) = ((&mut index[..], &mut out[..]), (&mut length, &mut count));
    let code = raw::search(&words, bytes, &recipes, &KEY, buffers, numbers, &mut tallies[1]);
    same("search", (code, length, count), (joined.0, want.len() as u64, joined.1))?;
    same("the tally", tallies[1], tallies[0])?;
    same("its index and its list", index == want && out == expected, true)?;
    let mut out = vec![0xEE; plain.len() + 3];
    same("compact_size", answer(|told| raw::compact_size(bytes, &recipes, told)), (0, plain.len() as u64))?;
    same("compact", answer(|told| raw::compact(bytes, &recipes, &mut out, told)), (0, plain.len() as u64))?;
    same("the store without holes", out[..plain.len()] == plain && out[plain.len()..] == [0xEE; 3], true)?;
    let short = answer(|told| raw::compact(bytes, &recipes, &mut out[..plain.len() - 1], told));
    same("compact, a byte short", short, (9, UNTOLD))
}

/// Stores longer than 4,294,967,295 bytes, whose lengths are small, or 0, in 32 bits.
fn holes_behind() -> Verdict {
    println!("stores longer than 4,294,967,295 bytes");
    let offsets = [100, 1_000];
    let mut bytes = sparse(offsets, 2 * U32 + 100);
    for length in [U32, U32 + 1, U32 + 2, U32 + 100, 2 * U32 + 2, 2 * U32 + 100] {
        println!(" {length} bytes");
        as_without_holes(offsets, &bytes[..length as usize])?;
    }
    bytes.copy_within(8..28, 36);
    same("store check, twins", raw::check_store(&bytes), 8)?;
    bytes[8 + 24] = 0;
    same("store check, a length of 0", raw::check_store(&bytes), 7)?;
    bytes[4..8].fill(0);
    same("store check, without chunks", raw::check_store(&bytes), 0)?;
    bytes[0] = 0;
    same("store check, another mark", raw::check_store(&bytes), 5)
}

/// A hole between two chunks, the second of which ends at 4,294,967,295, and one beyond it.
fn hole_between() -> Verdict {
    println!("a hole up to 4,294,967,295");
    let last = U32 - PIECES[1].len() as u64;
    for offsets in [[64, last], [last - PIECES[0].len() as u64, last], [1 << 31, last], [64, (1 << 31) - 3]] {
        println!(" chunks at {offsets:?}");
        let bytes = sparse(offsets, U32 + 1);
        as_without_holes(offsets, &bytes)?;
        as_without_holes(offsets, &bytes[..U32 as usize])?;
    }
    let bytes = sparse([64, last], U32 + 1);
    same("store check, a byte short", raw::check_store(&bytes[..U32 as usize - 1]), 7)?;
    drop(bytes);
    let bytes = sparse([64, last + 1], U32 + 1);
    for length in [U32 + 1, U32, 2_000] {
        let bytes = &bytes[..length as usize];
        same("store check, an end of 4,294,967,296", raw::check_store(bytes), 20)?;
        same("scan", scan(&list(false, &[b"cash"]), bytes, &mut [0; 90]), (20, UNTOLD, UNTOLD))?;
        same("chunk", raw::chunk(bytes, &fixed::key(0)), (20, 0, 0))?;
    }
    Ok(())
}
