//! Reading whole files: no more than the format of their kind allows, and no more than memory holds.

use crate::failure::Failure;
use crate::progress::{size, Progress};
use crate::text;
use std::fs::File;
use std::io::{self, Read};
use std::path::Path;

/// A kind of input.
pub struct Kind {
    what: &'static str,
    /// The largest length.
    most: u64,
    /// Whether the first bytes (8, or all that there are) decide that the whole is refused as they alone are.
    decided: fn(&[u8]) -> bool,
}

impl Kind {
    /// A text of at most so many bytes.
    pub const fn text(what: &'static str, most: u64) -> Kind {
        Kind { what, most, decided: |_| false }
    }
}

/// The most files that recipes have.
pub const MOST_FILES: u32 = 65_535;

/// What isn't a regular file tells no length, so it is read up to this one, or the largest of its kind.
const MOST_OF_A_STREAM: u64 = 4_294_967_295;

/// 2 bytes, and 16 keywords of 1 + 32 bytes.
pub const KEYWORDS: Kind = Kind { what: "a binary keyword list", most: 530, decided: |_| false };

/// Keywords, line ends and empty lines.
pub const LIST: Kind = Kind { what: "a text list of keywords", most: 1 << 20, decided: |_| false };

/// 65,535 paths of 4,096 bytes, all escaped.
pub const NAMES: Kind = Kind { what: "a list of file names", most: 1 << 30, decided: |_| false };

/// A length that is none: memory ends first.
const UNBOUNDED: u64 = u64::MAX - 1;

/// A hole behind the last chunk has any length.
pub const STORE: Kind =
    Kind { what: "a store", most: UNBOUNDED, decided: |first| vault::check_store(first).is_err_and(|error| error.code == 5) };

/// The last body's offset and its length, of 4 bytes each.
pub const INDEX: Kind = Kind {
    what: "an index",
    most: 2 * 4_294_967_295,
    decided: |first| vault::check_index(first).is_err_and(|error| error.code == 10),
};

/// A file may name any number of chunks.
pub const RECIPES: Kind = Kind {
    what: "recipes",
    most: UNBOUNDED,
    decided: |first| file_count(first).is_some_and(|files| files > MOST_FILES || files == 0 && first.len() > 4),
};

/// A file that goes into a vault.
pub const PLAIN: Kind = Kind { what: "a file of a vault", most: 4_294_967_295, decided: |_| false };

/// The number of files that recipes say they have.
pub fn file_count(recipes: &[u8]) -> Option<u32> {
    recipes.first_chunk().map(|bytes| u32::from_le_bytes(*bytes))
}

/// A whole file, or the first bytes of one that they decide to be refused.
pub fn read(progress: &Progress, path: &Path, kind: &Kind) -> Result<Vec<u8>, Failure> {
    let failed = |error: io::Error| Failure::file(path, error);
    let mut file = File::open(path).map_err(failed)?;
    let about = file.metadata().map_err(failed)?;
    let (length, most) = match about.is_file() {
        true => (about.len(), kind.most),
        false => (0, kind.most.min(MOST_OF_A_STREAM)),
    };
    let why = match most < kind.most {
        true => "is read of a device or a pipe".into(),
        false => format!("{} may have", kind.what),
    };
    let too_long = || Failure::file(path, format!("longer than {most} bytes, the most that {why}"));
    if length > most {
        return Err(too_long());
    }
    let step = format!("reading {} ({})", text::path(path), size(length));
    progress.step(&step, length, || {
        let mut bytes = Vec::new();
        file.by_ref().take(8).read_to_end(&mut bytes).map_err(failed)?;
        let left = (most + 1).saturating_sub(bytes.len() as u64);
        if (kind.decided)(&bytes) {
            let skipped = if about.is_file() { 0 } else { io::copy(&mut file.take(left), &mut io::sink()).map_err(failed)? };
            return if skipped < left { Ok(bytes) } else { Err(too_long()) };
        }
        reserve(&mut bytes, length).map_err(|()| Failure::memory(&text::path(path), length))?;
        file.take(left).read_to_end(&mut bytes).map_err(|error| match error.kind() {
            io::ErrorKind::OutOfMemory => Failure::memory(&text::path(path), 2 * bytes.len() as u64),
            _ => failed(error),
        })?;
        if bytes.len() as u64 > most {
            return Err(too_long());
        }
        Ok(bytes)
    })
}

/// Room for a file of this length; the end is found by a read into one byte more.
fn reserve(bytes: &mut Vec<u8>, length: u64) -> Result<(), ()> {
    let length = usize::try_from(length + 1).map_err(|_| ())?;
    bytes.try_reserve_exact(length.saturating_sub(bytes.len())).map_err(|_| ())
}
