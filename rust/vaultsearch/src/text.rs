//! Bytes as text that is safe on a terminal, and back.

use std::fmt::{Display, Write as _};
use std::io::Write as _;
use std::path::Path;

/// A line on standard error; a standard error that takes nothing is no reason to end.
pub fn say(line: impl Display) {
    let _ = writeln!(std::io::stderr().lock(), "{line}");
}

fn put_hex(text: &mut String, bytes: &[u8]) {
    for b in bytes {
        let _ = write!(text, "\\x{b:02x}");
    }
}

/// One line: UTF-8 as it is, but the backslash as \\, and control characters and bytes that aren't UTF-8 as \xNN.
pub fn line(bytes: &[u8]) -> String {
    let mut text = String::new();
    for chunk in bytes.utf8_chunks() {
        for c in chunk.valid().chars() {
            match c {
                '\\' => text.push_str("\\\\"),
                c if c.is_control() => put_hex(&mut text, c.encode_utf8(&mut [0; 4]).as_bytes()),
                c => text.push(c),
            }
        }
        put_hex(&mut text, chunk.invalid());
    }
    text
}

pub fn path(path: &Path) -> String {
    line(path.as_os_str().as_encoded_bytes())
}

pub fn paths(paths: &[impl AsRef<Path>]) -> String {
    paths.iter().map(|one| path(one.as_ref())).collect::<Vec<_>>().join(", ")
}

/// Printable ASCII as it is, but for the backslash; all else as \xNN.
pub fn ascii(bytes: &[u8]) -> String {
    let mut text = String::new();
    for b in bytes {
        match b {
            b'\\' => text.push_str("\\\\"),
            b' '..=b'~' => text.push(char::from(*b)),
            _ => put_hex(&mut text, &[*b]),
        }
    }
    text
}

/// Adds the bytes that a line stands for; none if a backslash begins neither \\ nor \xNN.
pub fn unescape(mut line: &[u8], bytes: &mut Vec<u8>) -> Option<()> {
    let digit = |b: u8| char::from(b).to_digit(16).map(|d| d as u8);
    while let Some((&first, rest)) = line.split_first() {
        let (b, behind) = match (first, rest) {
            (b'\\', [b'\\', behind @ ..]) => (b'\\', behind),
            (b'\\', [b'x', high, low, behind @ ..]) => (16 * digit(*high)? + digit(*low)?, behind),
            (b'\\', _) => return None,
            _ => (first, rest),
        };
        bytes.push(b);
        line = behind;
    }
    Some(())
}

#[cfg(test)]
mod tests {
    use super::*;

    fn unescaped(line: &[u8]) -> Option<Vec<u8>> {
        let mut bytes = Vec::new();
        unescape(line, &mut bytes).map(|()| bytes)
    }

    #[test]
    fn a_line_keeps_every_byte() {
        for bytes in [(0..=255).collect::<Vec<u8>>(), "grüße\\x41 \u{9b}2J\r\n\t\u{7f}".into(), b"\xc3(\\".to_vec(), vec![]] {
            let text = line(&bytes);
            assert!(!text.chars().any(char::is_control), "{text:?}");
            assert_eq!(unescaped(text.as_bytes()), Some(bytes));
        }
        assert_eq!(line("grüße\t\u{9b}\\".as_bytes()), "grüße\\x09\\xc2\\x9b\\\\");
        assert_eq!(line(b"a\xffb"), "a\\xffb");
    }

    #[test]
    fn malformed_escapes() {
        for text in ["\\", "a\\n", "\\x", "\\x4", "\\xg0", "\\x0g"] {
            assert_eq!(unescaped(text.as_bytes()), None, "{text}");
        }
        assert_eq!(unescaped(b"\\x4A\\x4a\\\\x"), Some(b"JJ\\x".to_vec()));
    }
}
