//! Document 01, "Words", and request 104, "Accented capitals": keyword lists, the fold flag, and the word check (1 to 4).

use crate::Code;

/// An accepted keyword list.
#[derive(Clone, Debug, PartialEq, Eq)]
pub struct Keywords {
    pub fold: bool,
    /// The keywords as given, not folded.
    pub words: Vec<Vec<u8>>,
    /// The bytes that the list takes.
    pub size: usize,
}

/// The byte that `b` compares as: with the flag, 41 to 5A compare as the byte 20 (hexadecimal) higher, and so do, by request 104,
/// C0 to DE except D7.
pub fn compares_as(fold: bool, b: u8) -> u8 {
    let letter = (0x41..=0x5A).contains(&b);
    let accented = (0xC0..=0xDE).contains(&b) && b != 0xD7;
    if fold && (letter || accented) {
        b + 0x20
    } else {
        b
    }
}

/// Whether two pieces have the same length and each byte compares alike with the one in its place.
pub fn alike(fold: bool, a: &[u8], b: &[u8]) -> bool {
    a.len() == b.len() && a.iter().zip(b).all(|(x, y)| compares_as(fold, *x) == compares_as(fold, *y))
}

/// Whether the word stands at an offset of some bytes: all its bytes lie within them, and each compares alike.
pub fn stands_at(fold: bool, word: &[u8], data: &[u8], at: usize) -> bool {
    at <= data.len() && word.len() <= data.len() - at && alike(fold, word, &data[at..at + word.len()])
}

impl Keywords {
    /// The longest word's length.
    pub fn longest(&self) -> usize {
        self.words.iter().map(|w| w.len()).max().unwrap_or(0)
    }

    pub fn stands_at(&self, word: usize, data: &[u8], at: usize) -> bool {
        stands_at(self.fold, &self.words[word], data, at)
    }

    /// The list's bytes.
    pub fn encode(&self) -> Vec<u8> {
        let mut bytes = vec![self.words.len() as u8, self.fold as u8];
        for word in &self.words {
            bytes.push(word.len() as u8);
            bytes.extend_from_slice(word);
        }
        bytes
    }
}

/// A list from its words, which need not be acceptable.
pub fn list_of(fold: bool, words: &[&[u8]]) -> Vec<u8> {
    let words: Vec<Vec<u8>> = words.iter().map(|w| w.to_vec()).collect();
    Keywords { fold, words, size: 0 }.encode()
}

/// The word check of a whole keyword list.
pub fn read(list: &[u8]) -> Result<Keywords, Code> {
    check(list, true)
}

/// The word check of a list that other bytes follow: the same without the test for left-over bytes.
pub fn read_front(bytes: &[u8]) -> Result<Keywords, Code> {
    check(bytes, false)
}

fn check(bytes: &[u8], whole: bool) -> Result<Keywords, Code> {
    if bytes.len() < 2 {
        return Err(1);
    }
    let (count, flag) = (bytes[0], bytes[1]);
    if !(1..=16).contains(&count) || flag > 1 {
        return Err(2);
    }
    let fold = flag == 1;
    let mut words: Vec<Vec<u8>> = Vec::new();
    let mut rest = &bytes[2..];
    for _ in 0..count {
        let Some((&n, behind)) = rest.split_first() else {
            return Err(1);
        };
        let n = usize::from(n);
        if n == 0 || n > 32 {
            return Err(3);
        }
        if behind.len() < n {
            return Err(1);
        }
        words.push(behind[..n].to_vec());
        rest = &behind[n..];
    }
    if whole && !rest.is_empty() {
        return Err(1);
    }
    for (k, word) in words.iter().enumerate() {
        if words[..k].iter().any(|earlier| alike(fold, earlier, word)) {
            return Err(4);
        }
    }
    Ok(Keywords { fold, words, size: bytes.len() - rest.len() })
}

#[cfg(test)]
mod tests {
    use super::*;

    fn code(list: &[u8]) -> Code {
        read(list).err().unwrap_or(0)
    }

    #[test]
    fn the_order_of_tests() {
        assert_eq!(code(&[]), 1);
        assert_eq!(code(&[0xFF]), 1);
        assert_eq!(code(&[0, 0]), 2);
        assert_eq!(code(&[0x11, 2]), 2);
        assert_eq!(code(&[1, 2, 0]), 2);
        assert_eq!(code(&[17, 0]), 2);
        assert_eq!(code(&[1, 0]), 1);
        assert_eq!(code(&[1, 0, 0x21, 0x41]), 3);
        assert_eq!(code(&[1, 0, 0]), 3);
        assert_eq!(code(&[2, 0, 3, 0x41, 0]), 1);
        assert_eq!(code(&[2, 0, 1, 0x41, 0]), 3);
        assert_eq!(code(&[2, 0, 1, 0x41, 1, 0x41, 0]), 1);
        assert_eq!(code(&[2, 0, 1, 0x41, 1, 0x41]), 4);
        assert_eq!(read_front(&[2, 0, 1, 0x41, 1, 0x41, 0]), Err(4));
        assert_eq!(code(&[2, 0, 3, 0x41, 0x42, 0x41, 2, 0x41, 0x41]), 0);
    }

    #[test]
    fn the_fold_flag() {
        assert!(alike(true, b"b", b"B"));
        assert!(!alike(true, b"{", b"["));
        assert!(!alike(true, b"@", b"`"));
        assert!(alike(true, b"AZ", b"az"));
        assert!(!alike(false, b"b", b"B"));
        assert_eq!(code(&list_of(true, &[b"Ab", b"aB"])), 4);
        assert_eq!(code(&list_of(false, &[b"Ab", b"aB"])), 0);
        assert_eq!(code(&list_of(true, &[b"[", b"{"])), 0);
    }

    /// Request 104: every byte, and the borders by name.
    #[test]
    fn accented_capitals() {
        for b in 0..=255u8 {
            let higher = matches!(b, 0x41..=0x5A | 0xC0..=0xD6 | 0xD8..=0xDE);
            assert_eq!(compares_as(true, b), if higher { b + 0x20 } else { b }, "{b:02X}");
            assert_eq!(compares_as(false, b), b);
        }
        for b in [0xC0, 0xD6, 0xD8, 0xDE] {
            assert!(alike(true, &[b], &[b + 0x20]) && !alike(false, &[b], &[b + 0x20]), "{b:02X}");
        }
        for b in [0xBF, 0xD7, 0xDF, 0xF7, 0xFF] {
            for flag in [false, true] {
                assert_eq!(compares_as(flag, b), b);
                for other in (0..=255).filter(|other| *other != b) {
                    assert!(!alike(flag, &[b], &[other]), "{b:02X} {other:02X}");
                }
            }
        }
    }

    #[test]
    fn accented_capitals_in_refusal_4() {
        for (a, b, with) in [
            (0xC9, 0xE9, 4),
            (0xC0, 0xE0, 4),
            (0xD6, 0xF6, 4),
            (0xD8, 0xF8, 4),
            (0xDE, 0xFE, 4),
            (0xBF, 0xDF, 0),
            (0xD7, 0xF7, 0),
            (0xDF, 0xFF, 0),
            (0x9F, 0xBF, 0),
        ] {
            for (flag, want) in [(true, with), (false, 0)] {
                let list = list_of(flag, &[b"x", &[b'c', a, b'f'], &[b'c', b, b'f']]);
                assert_eq!((code(&list), read_front(&list).err().unwrap_or(0)), (want, want), "{a:02X} {b:02X}");
                assert_eq!(code(&list_of(flag, &[&[a], &[b]])), want);
            }
        }
        // Read from a front too, and compared in all bytes.
        assert_eq!(read_front(&[2, 1, 1, 0xC9, 1, 0xE9, 7]), Err(4));
        assert_eq!(code(&list_of(true, &[b"\xC9t\xC9", b"\xE9T\xE9"])), 4);
        assert_eq!(code(&list_of(true, &[b"\xC9t\xD7", b"\xE9T\xF7"])), 0);
    }

    /// In UTF-8 capital and small letter differ in a byte that doesn't fold; C3 and E3 are alike.
    #[test]
    fn accented_letters_of_two_bytes() {
        assert!(!alike(true, "\u{C9}".as_bytes(), "\u{E9}".as_bytes()));
        for second in (0x80..=0x9E).chain(0xA0..=0xBE) {
            assert_eq!(compares_as(true, second), second);
            assert!(alike(true, &[0xC3, second], &[0xE3, second]));
        }
    }

    #[test]
    fn the_largest_list() {
        let words: Vec<Vec<u8>> = (0..16).map(|k| vec![k; 32]).collect();
        let list = list_of(false, &words.iter().map(|w| &w[..]).collect::<Vec<_>>());
        assert_eq!((list.len(), code(&list)), (530, 0));
        let mut twin = list.clone();
        let first = twin[3..35].to_vec();
        twin[530 - 32..].copy_from_slice(&first);
        assert_eq!(code(&twin), 4);
    }

    #[test]
    fn round_trip() {
        let list = list_of(true, &[b"ABA", b"aa", b"x"]);
        let read = read(&list).unwrap();
        assert_eq!((read.encode(), read.size, read.longest()), (list.clone(), list.len(), 3));
        let mut more = list.clone();
        more.extend_from_slice(b"rest");
        assert_eq!(read_front(&more), Ok(read));
    }
}
