//! File names by number: a text with a name a line, in which `text::line` escapes what a line can't hold.

use crate::failure::Failure;
use crate::text;
use std::path::Path;

/// The names of so many files. A line's end is LF or CR LF.
pub fn parse(path: &Path, bytes: &[u8], files: u32) -> Result<Vec<Vec<u8>>, Failure> {
    let unended = bytes.last().is_some_and(|last| *last != b'\n');
    let count = bytes.iter().filter(|b| **b == b'\n').count() + usize::from(unended);
    if count != files as usize {
        return Err(Failure::file(path, format!("{count} names, but the recipes have {files} files")));
    }
    let lines = bytes.split(|b| *b == b'\n').map(|line| line.strip_suffix(b"\r").unwrap_or(line));
    let mut names = Vec::new();
    for (number, line) in lines.take(count).enumerate() {
        let mut name = Vec::new();
        name.try_reserve_exact(line.len()).map_err(|_| Failure::memory(&text::path(path), line.len() as u64))?;
        let malformed = || Failure::file(path, format!("line {}: a backslash that begins neither \\\\ nor \\xNN", number + 1));
        text::unescape(line, &mut name).ok_or_else(malformed)?;
        names.push(name);
    }
    Ok(names)
}

#[cfg(test)]
mod tests {
    use super::*;

    #[test]
    fn lines_are_counted() {
        let names = |bytes: &[u8], files| parse(Path::new("n"), bytes, files).map_err(|failure| failure.to_string());
        assert_eq!(names(b"a\n\nb\r\n", 3), Ok(vec![b"a".to_vec(), vec![], b"b".to_vec()]));
        assert_eq!(names(b"a\\x0d\n\\\\", 2), Ok(vec![b"a\r".to_vec(), b"\\".to_vec()]));
        assert_eq!(names(b"", 0), Ok(vec![]));
        assert_eq!(names(b"\n", 1), Ok(vec![vec![]]));
        assert_eq!(names(b"a\nb", 3), Err("n: 2 names, but the recipes have 3 files".into()));
        assert_eq!(names(b"a\nb\n", 1), Err("n: 2 names, but the recipes have 1 files".into()));
        assert_eq!(names(b"a\n\\q\n", 2), Err("n: line 2: a backslash that begins neither \\\\ nor \\xNN".into()));
    }
}
