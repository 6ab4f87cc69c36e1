//! Document 01, "Notes file": the match index, its check (10, 1 to 4, 11 to 13), and its writer.

use crate::form::{Form, KNOWN};
use crate::keywords::{read_front, Keywords};
use crate::records::{decode_body, encode_body, records_of, Record};
use crate::store::Chunk;
use crate::{fingerprint, number, twice, Code, Fingerprint, MOST_CHUNKS};
use std::ops::Range;

/// What an accepted index says of one chunk.
#[derive(Clone, Debug, PartialEq, Eq)]
pub struct Entry {
    pub key: Fingerprint,
    /// The chunk's length L.
    pub size: u64,
    /// Where the body lies in the index.
    pub body: Range<usize>,
    pub records: Vec<Record>,
}

/// An accepted index.
#[derive(Clone, Debug, PartialEq, Eq)]
pub struct Index {
    pub form: Form,
    pub keywords: Keywords,
    pub entries: Vec<Entry>,
}

/// The notes check.
pub fn read(index: &[u8]) -> Result<Index, Code> {
    read_among(&KNOWN, index)
}

/// The notes check where these forms are known.
pub fn read_among(known: &[Form], index: &[u8]) -> Result<Index, Code> {
    let form = Form::of(known, index).ok_or(10)?;
    if index.len() < 8 || number(index, 4) > MOST_CHUNKS {
        return Err(10);
    }
    let count = number(index, 4);
    let keywords = read_front(&index[8..])?;
    let directory = 8 + keywords.size;
    let mut end = directory as u64 + 32 * count;
    if (index.len() as u64) < end {
        return Err(11);
    }
    let mut places = Vec::new();
    for k in 0..count as usize {
        let entry = directory + 32 * k;
        let (size, offset, length) = (number(index, entry + 20), number(index, entry + 24), number(index, entry + 28));
        if !(1..=form.longest_chunk).contains(&size) || offset != end {
            return Err(11);
        }
        end += length;
        places.push((fingerprint(index, entry), size, offset..end));
    }
    if end != index.len() as u64 {
        return Err(11);
    }
    if twice(places.iter().map(|(key, _, _)| key)) {
        return Err(12);
    }
    let mut entries = Vec::new();
    for (key, size, place) in places {
        // The last end is the file's, so every body lies within it.
        let body = place.start as usize..place.end as usize;
        let records = decode_body(&form, &keywords, size as usize, &index[body.clone()]).ok_or(13)?;
        entries.push(Entry { key, size, body, records });
    }
    Ok(Index { form, keywords, entries })
}

/// An index of that form from a keyword list's bytes and, for each chunk, fingerprint, L and body, whether or not they are good.
pub fn encode<B: AsRef<[u8]>>(form: &Form, list: &[u8], entries: &[(Fingerprint, u64, B)]) -> Vec<u8> {
    let mut bytes = form.mark.to_vec();
    bytes.extend_from_slice(&(entries.len() as u32).to_le_bytes());
    bytes.extend_from_slice(list);
    let mut end = (bytes.len() + 32 * entries.len()) as u64;
    for (key, size, body) in entries {
        let length = body.as_ref().len() as u64;
        bytes.extend_from_slice(key);
        for field in [*size, end, length] {
            bytes.extend_from_slice(&(field as u32).to_le_bytes());
        }
        end += length;
    }
    for (_, _, body) in entries {
        bytes.extend_from_slice(body.as_ref());
    }
    bytes
}

/// The length of the index that a scan of accepted inputs writes in that form, without holding the bodies.
pub fn length_of_scan(form: &Form, keywords: &Keywords, store: &[u8], chunks: &[Chunk]) -> u64 {
    let bodies: u64 = chunks.iter().map(|c| encode_body(form, &records_of(keywords, &store[c.place.clone()])).len() as u64).sum();
    8 + keywords.size as u64 + 32 * chunks.len() as u64 + bodies
}

/// The index that a scan of accepted inputs writes in that form.
pub fn of_scan(form: &Form, list: &[u8], keywords: &Keywords, store: &[u8], chunks: &[Chunk]) -> Vec<u8> {
    let entries: Vec<(Fingerprint, u64, Vec<u8>)> = chunks
        .iter()
        .map(|c| (c.key, c.place.len() as u64, encode_body(form, &records_of(keywords, &store[c.place.clone()]))))
        .collect();
    encode(form, list, &entries)
}

#[cfg(test)]
mod tests {
    use super::*;
    use crate::form::{FORM1, FORM2, FORM3};
    use crate::keywords::list_of;
    use crate::{store, U32};

    fn code(index: &[u8]) -> Code {
        read(index).err().unwrap_or(0)
    }

    fn small() -> Vec<u8> {
        small_in(&FORM1)
    }

    fn small_in(form: &Form) -> Vec<u8> {
        let list = list_of(false, &[b"ABA", b"AA"]);
        let store = store::encode(&[([1; 20], &b"XAB"[..]), ([2; 20], b"ABAX"), ([3; 20], b"A")]);
        of_scan(form, &list, &crate::keywords::read(&list).unwrap(), &store, &store::read(&store).unwrap())
    }

    #[test]
    fn the_small_index() {
        let index = small();
        let read = read(&index).unwrap();
        let starts: Vec<usize> = read.entries.iter().map(|e| e.body.start).collect();
        assert_eq!((index.len(), starts), (136, vec![113, 120, 130]));
        assert_eq!(index[113..], [0, 1, 2, 0, 0, 0, 0, 0, 1, 0, 1, 1, 0, 0, 1, 0, 2, 0, 0, 3, 1, 0, 3]);
    }

    /// Request 105: the bodies lie at 113, 121 and 132 of 138 bytes.
    #[test]
    fn the_small_index_in_the_second_form() {
        let (first, second) = (small(), small_in(&FORM2));
        let both = [FORM1, FORM2];
        let read = read_among(&both, &second).unwrap();
        let starts: Vec<usize> = read.entries.iter().map(|e| e.body.start).collect();
        assert_eq!((second.len(), starts), (138, vec![113, 121, 132]));
        assert_eq!(second[..4], [0x44, 0x4D, 0x32, 0x0A]);
        assert_eq!(second[113..], [0, 1, 2, 0, 0, 0, 0, 0, 0, 1, 0, 1, 1, 0, 0, 0, 1, 0, 2, 0, 0, 3, 1, 0, 3]);
        // The same records as the old mark's, which is read as before.
        let older = read_among(&both, &first).unwrap();
        assert_eq!(older, super::read(&first).unwrap());
        let records = |index: &Index| index.entries.iter().map(|e| (e.key, e.size, e.records.clone())).collect::<Vec<_>>();
        assert_eq!((records(&older), &older.keywords), (records(&read), &read.keywords));
        // Another mark's bodies are not good, and a mark that isn't known is 10.
        for (index, other) in [(first, FORM2), (second, FORM1)] {
            let mut wrong = index.clone();
            wrong[..4].copy_from_slice(&other.mark);
            assert_eq!(read_among(&both, &wrong), Err(13));
            assert_eq!(read_among(&[other], &index), Err(10));
        }
    }

    /// Request 108: the small vault's index is request 105's under another mark; a set is 13 under the older ones.
    #[test]
    fn the_small_index_in_the_third_form() {
        let (second, third) = (small_in(&FORM2), small_in(&FORM3));
        assert_eq!((&third[..4], &third[4..]), (&[0x44, 0x4D, 0x33, 0x0A][..], &second[4..]));
        assert_eq!(read_among(&[FORM1, FORM2], &third), Err(10));
        let body = [0, 0, 3, 0, 4, 6, 0, 0, 0];
        for (form, want) in [(FORM1, 13), (FORM2, 13), (FORM3, 0)] {
            let index = encode(&form, &list_of(false, &[b"AAAA"]), &[([1; 20], 1, body)]);
            assert_eq!(code(&index), want);
        }
    }

    /// Each mark has its longest chunk.
    #[test]
    fn chunk_lengths_by_the_mark() {
        for form in KNOWN {
            for (size, want) in [(0, 11), (1, 0), (form.longest_chunk, 0), (form.longest_chunk + 1, 11), (U32, 11)] {
                let index = encode(&form, &[1, 0, 1, 0x41], &[([1; 20], size, &b""[..])]);
                assert_eq!(read_among(&KNOWN, &index).err().unwrap_or(0), want, "{form:?} {size}");
            }
        }
    }

    #[test]
    fn the_order_of_tests() {
        let index = small();
        assert_eq!(code(b""), 10);
        assert_eq!(code(&index[..7]), 10);
        assert_eq!(code(&index[..8]), 1);
        assert_eq!(code(&index[..9]), 1);
        assert_eq!(code(&index[..16]), 1);
        assert_eq!(code(&index[..17]), 11);
        assert_eq!(code(&index[..135]), 11);
        for (at, byte, want) in [
            (0, 0, 10),
            (4, 4, 11),
            (6, 1, 10),
            (8, 0, 2),
            (10, 0, 3),
            (17 + 20, 0, 11),
            (17 + 22, 1, 11),
            (17 + 24, 114, 11),
            (17 + 32, 1, 0),
            (113, 9, 13),
        ] {
            let mut wrong = index.clone();
            wrong[at] = byte;
            assert_eq!(code(&wrong), want, "byte {at}");
        }
        let mut twin = index.clone();
        twin[17 + 32..17 + 52].fill(1);
        assert_eq!(code(&twin), 12);
        twin[113] = 9;
        assert_eq!(code(&twin), 12);
        twin.push(0);
        assert_eq!(code(&twin), 11);
    }

    #[test]
    fn keywords_inside() {
        let alike = encode::<&[u8]>(&FORM1, &[2, 0, 1, 0x41, 1, 0x41], &[]);
        assert_eq!(code(&alike), 4);
        let mut cut = alike.clone();
        cut[4] = 9;
        assert_eq!(code(&cut), 4);
        let mut none = encode::<&[u8]>(&FORM1, &[1, 0, 1, 0x41], &[]);
        assert_eq!(code(&none), 0);
        none.push(0);
        assert_eq!(code(&none), 11);
        none[6] = 1;
        assert_eq!(code(&none), 10);
    }

    /// Request 104 in an index, which no call can tell from an older one: 4 is judged by the wider map, before 11; and the records
    /// may be those of the narrower one.
    #[test]
    fn accented_capitals_inside() {
        for (a, b, with) in [(0xC9, 0xE9, 4), (0xDE, 0xFE, 4), (0xD7, 0xF7, 0), (0xDF, 0xFF, 0)] {
            for (flag, want) in [(true, with), (false, 0)] {
                let mut index = encode(&FORM1, &list_of(flag, &[&[a], &[b]]), &[([1; 20], 1, &b""[..])]);
                assert_eq!(code(&index), want, "{a:02X} {b:02X}");
                index.pop();
                assert_eq!(code(&index), if want == 4 { 4 } else { 11 });
            }
        }
        let list = list_of(true, &[b"\xC9t"]);
        let narrow = encode(&FORM1, &list, &[([1; 20], 2, &b""[..])]);
        let store = store::encode(&[([1; 20], b"\xE9t")]);
        let wide = of_scan(&FORM1, &list, &crate::keywords::read(&list).unwrap(), &store, &store::read(&store).unwrap());
        assert_eq!((code(&narrow), code(&wide), wide.len() - narrow.len()), (0, 0, 7));
    }

    #[test]
    fn sums_do_not_wrap() {
        let mut index = encode(&FORM1, &[1, 0, 1, 0x41], &[([1; 20], 1, &b""[..]), ([2; 20], 1, b"")]);
        let directory = 12;
        index[directory + 28..directory + 32].fill(0xFF);
        let wrapped = (index.len() as u32).wrapping_add(u32::MAX);
        index[directory + 56..directory + 60].copy_from_slice(&wrapped.to_le_bytes());
        index[directory + 60..directory + 64].copy_from_slice(&1u32.to_le_bytes());
        assert_eq!(code(&index), 11);
    }
}
