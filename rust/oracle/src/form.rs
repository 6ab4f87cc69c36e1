//! The written forms of an index ("Notes file"), by their marks: document 01's, and those of requests 105 and 108.

/// What an index's mark says of the rest.
#[derive(Clone, Copy, Debug, PartialEq, Eq)]
pub struct Form {
    pub mark: [u8; 4],
    /// Bytes of an offset inside a chunk, and of the exact count.
    pub width: usize,
    /// The longest chunk.
    pub longest_chunk: u64,
    /// Whether records have a set of inner starts (kind 4), so that a keyword is joined over any number of chunks. Without it 17 stands.
    pub sets: bool,
}

/// Document 01.
pub const FORM1: Form = Form { mark: [0x44, 0x4D, 0x31, 0x0A], width: 2, longest_chunk: 65_535, sets: false };

/// Request 105.
pub const FORM2: Form = Form { mark: [0x44, 0x4D, 0x32, 0x0A], width: 3, longest_chunk: 1_048_576, sets: false };

/// Request 108.
pub const FORM3: Form = Form { mark: [0x44, 0x4D, 0x33, 0x0A], sets: true, ..FORM2 };

/// The form that a scan writes. Its longest chunk is a store's too.
pub const NEWEST: Form = FORM3;

/// The forms that are read.
pub const KNOWN: [Form; 3] = [FORM1, FORM2, FORM3];

impl Form {
    /// The one of these forms that the mark names.
    pub fn of(known: &[Form], index: &[u8]) -> Option<Form> {
        known.iter().find(|form| index.starts_with(&form.mark)).copied()
    }

    /// The bytes of an offset or an exact count.
    pub fn field(&self, number: usize) -> Vec<u8> {
        number.to_le_bytes()[..self.width].to_vec()
    }
}

#[cfg(test)]
mod tests {
    use super::*;

    #[test]
    fn by_the_mark() {
        for form in KNOWN {
            assert_eq!(Form::of(&KNOWN, &[&form.mark[..], &[9; 4]].concat()), Some(form));
            assert_eq!(Form::of(&KNOWN, &form.mark[..3]), None);
        }
        assert_eq!(Form::of(&KNOWN, b"DM1\n\0\0\0\0"), Some(FORM1));
        assert_eq!(Form::of(&KNOWN, &[0x44, 0x4D, 0x32, 0x0A]), Some(FORM2));
        assert_eq!(Form::of(&KNOWN, &[0x44, 0x4D, 0x33, 0x0A]), Some(NEWEST));
        for other in [b"DM0\n", b"DM4\n", b"DM5\n", b"DM3\r", b"DV1\n", b"dm3\n"] {
            assert_eq!(Form::of(&KNOWN, other), None);
        }
    }

    /// The largest offset and the largest exact count fit their fields.
    #[test]
    fn fields() {
        assert_eq!(FORM1.field(65_535), [0xFF, 0xFF]);
        assert_eq!(FORM1.field(0x0102), [2, 1]);
        assert_eq!(FORM2.field(1_048_576), [0, 0, 0x10]);
        assert_eq!(FORM2.field(0x010203), [3, 2, 1]);
        assert_eq!((FORM3.width, FORM3.longest_chunk), (FORM2.width, FORM2.longest_chunk));
    }
}
