//! What the formats bound, and what an index's mark says: the one place in which the wrapper, the command line and the benchmark have it.

/// How an index of some mark is written.
#[derive(Clone, Copy, Debug, PartialEq, Eq)]
pub struct Form {
    pub mark: [u8; 4],
    /// Bytes of a field: an offset inside a chunk, or an exact count.
    pub width: usize,
    /// The longest chunk that it has a body of.
    pub longest_chunk: usize,
    /// Whether it has sets of inner starts (kind 4): then a keyword is found over any number of chunks, and refusal 17 never comes.
    pub sets: bool,
}

/// The forms that the library reads, the oldest first.
pub const FORMS: [Form; 3] = [
    Form { mark: *b"DM1\n", width: 2, longest_chunk: 65_535, sets: false },
    Form { mark: *b"DM2\n", width: 3, longest_chunk: 1_048_576, sets: false },
    Form { mark: *b"DM3\n", width: 3, longest_chunk: 1_048_576, sets: true },
];

/// The form that a scan writes.
pub const NEWEST: Form = FORMS[FORMS.len() - 1];

/// The longest chunk that a store has.
pub const LONGEST_CHUNK: usize = NEWEST.longest_chunk;

/// The most chunks that a store or an index has.
pub const MOST_CHUNKS: usize = 65_000;

/// No chunk of a store ends beyond it (refusal 20). The store itself may be longer: what is behind its last chunk is a hole.
pub const GREATEST_END: u64 = 4_294_967_295;

impl Form {
    /// The form of an index that [`check_index`](crate::check_index) accepts; of other bytes, the newest.
    pub fn of(index: &[u8]) -> Form {
        FORMS.into_iter().find(|form| index.starts_with(&form.mark)).unwrap_or(NEWEST)
    }

    /// What the mark says, without the line feed.
    pub fn name(&self) -> String {
        self.mark[..3].escape_ascii().to_string()
    }

    /// The bytes of a field.
    pub fn field(&self, number: usize) -> Vec<u8> {
        number.to_le_bytes()[..self.width].to_vec()
    }

    /// The field at a place of a good body.
    pub fn field_at(&self, body: &[u8], at: usize) -> usize {
        body[at..at + self.width].iter().rev().fold(0, |number, b| 256 * number + usize::from(*b))
    }

    /// Bytes of a record before its fields: keyword, kind, prefix, suffix, count.
    pub const HEAD: usize = 5;

    /// The kind of a set of inner starts, and its bytes: keyword, kind, bits.
    pub const SET: u8 = 4;
    pub const SET_LENGTH: usize = 6;

    /// The starts of the set at a place of a good body: those whose bits its 4 bytes have.
    pub fn starts_at(body: &[u8], at: usize) -> Vec<usize> {
        let bits = u32::from_le_bytes([body[at], body[at + 1], body[at + 2], body[at + 3]]);
        (0..32).filter(|start| (bits >> start) & 1 == 1).collect()
    }
}

#[cfg(test)]
mod tests {
    use super::*;

    #[test]
    fn fields() {
        for form in FORMS {
            for number in [0, 1, 255, 256, 258, 65_535, form.longest_chunk] {
                let body = [&[7][..], &form.field(number), &[9]].concat();
                assert_eq!((body.len(), form.field_at(&body, 1)), (2 + form.width, number));
            }
        }
        assert_eq!(FORMS[0].field(0x0102), [2, 1]);
        assert_eq!(NEWEST.field(0x010203), [3, 2, 1]);
        assert_eq!(NEWEST.field(LONGEST_CHUNK), [0, 0, 0x10]);
    }

    #[test]
    fn by_the_mark() {
        for form in FORMS {
            assert_eq!(Form::of(&[&form.mark[..], &[0; 4]].concat()), form);
        }
        assert_eq!((FORMS[0].name(), NEWEST.name()), ("DM1".into(), "DM3".into()));
        assert_eq!((Form::of(b"DM1\n\0\0\0\0").width, NEWEST.mark), (2, [0x44, 0x4D, 0x33, 0x0A]));
        assert_eq!(FORMS.map(|form| form.sets), [false, false, true]);
    }

    #[test]
    fn sets() {
        assert_eq!(Form::starts_at(&[9, 6, 0, 0, 0], 1), [1, 2]);
        assert_eq!(Form::starts_at(&[0xFE, 0xFF, 0xFF, 0x7F], 0), (1..31).collect::<Vec<_>>());
        assert_eq!(Form::starts_at(&[0, 1, 0, 0x40], 0), [8, 30]);
    }
}
