//! Writing: to standard output, or to a file that is whole or as it was before.
//!
//! A file is written under another name in its folder, synced, and renamed when it is whole. An error removes what was
//! written. A signal that ends the process while it writes leaves a `.vaultsearch-*.tmp` behind: std has no handlers.

use crate::failure::Failure;
use crate::{identity, text};
use std::collections::BTreeSet;
use std::fs::{self, File, Metadata, OpenOptions, Permissions};
use std::hash::{BuildHasher, Hasher, RandomState};
use std::io::{self, BufWriter, Write};
use std::os::unix::fs::{fchown, MetadataExt, OpenOptionsExt, PermissionsExt};
use std::path::{Path, PathBuf};

type Done = Result<(), Failure>;

/// To a file, or to standard output where none is named or where it is the same.
pub fn write(path: Option<&Path>, fill: impl FnOnce(&mut dyn Write) -> io::Result<()>) -> Done {
    match path {
        Some(path) if !identity::is_standard_output(path) => put_in_place(vec![prepare(path, fill)?]),
        _ => standard(fill),
    }
}

/// The same, and to a second file, a regular one: it is replaced when all of the first is written.
pub fn write_with(
    path: Option<&Path>,
    fill: impl FnOnce(&mut dyn Write) -> io::Result<()>,
    (second, text): (&Path, &str),
) -> Done {
    let second = prepare(second, |out| out.write_all(text.as_bytes()))?;
    match path {
        Some(path) if !identity::is_standard_output(path) => put_in_place(vec![prepare(path, fill)?, second]),
        _ => {
            standard(fill)?;
            put_in_place(vec![second])
        }
    }
}

pub fn standard(fill: impl FnOnce(&mut dyn Write) -> io::Result<()>) -> Done {
    let mut out = BufWriter::new(io::stdout().lock());
    fill(&mut out).and_then(|()| out.flush()).map_err(|error| Failure::File(format!("standard output: {error}")))
}

/// Output that is whole; a file of it is not yet in its place.
pub struct Prepared {
    path: PathBuf,
    replacement: Option<Replacement>,
}

/// Renames one file after the other, and then sees that the disk has the new names.
pub fn put_in_place(outputs: Vec<Prepared>) -> Done {
    let (mut replaced, mut folders) = (Vec::new(), BTreeSet::new());
    for Prepared { path, replacement } in outputs {
        let Some(replacement) = replacement else { continue };
        folders.insert(replacement.folder().to_path_buf());
        replacement.rename().map_err(|error| match replaced[..] {
            [] => Failure::file(&path, error),
            _ => Failure::file(&path, format!("{error} (replaced before: {})", text::paths(&replaced))),
        })?;
        replaced.push(path);
    }
    // Not every file system syncs folders; the files are whole in any case.
    for folder in folders {
        let _ = File::open(folder).and_then(|folder| folder.sync_all());
    }
    Ok(())
}

/// Writes all of an output: to a file's replacement, or at once to what isn't a regular file.
pub fn prepare(path: &Path, fill: impl FnOnce(&mut dyn Write) -> io::Result<()>) -> Result<Prepared, Failure> {
    let failed = |error: io::Error| Failure::file(path, error);
    let replacement = match fs::metadata(path) {
        Ok(about) if about.is_file() => Some(Replacement::of(&path.canonicalize().map_err(failed)?, &about).map_err(failed)?),
        Ok(_) => None,
        Err(error) if error.kind() == io::ErrorKind::NotFound => {
            let target = end_of_links(path).map_err(failed)?;
            Some(Replacement::create(target, 0o666).map_err(failed)?)
        }
        Err(error) => return Err(failed(error)),
    };
    match &replacement {
        Some(replacement) => {
            fill_file(&replacement.file, fill).and_then(|()| replacement.complete()).map_err(failed)?;
        }
        None => {
            let file = OpenOptions::new().write(true).open(path).map_err(failed)?;
            fill_file(&file, fill).map_err(failed)?;
        }
    }
    Ok(Prepared { path: path.to_path_buf(), replacement })
}

fn fill_file(file: &File, fill: impl FnOnce(&mut dyn Write) -> io::Result<()>) -> io::Result<()> {
    let mut out = BufWriter::with_capacity(1 << 16, file);
    fill(&mut out).and_then(|()| out.flush())
}

/// Where a link to nothing, or a link to such a link, points.
fn end_of_links(path: &Path) -> io::Result<PathBuf> {
    let mut path = path.to_path_buf();
    while path.symlink_metadata().is_ok_and(|about| about.is_symlink()) {
        let link = path.read_link()?;
        path.pop();
        path.push(link);
    }
    Ok(path)
}

/// What will be a file, under a name of its own in the file's folder. Removed if it is not renamed.
struct Replacement {
    file: File,
    path: PathBuf,
    target: PathBuf,
    old: Option<Metadata>,
    renamed: bool,
}

impl Replacement {
    /// Of a file that is there and may be written.
    fn of(target: &Path, old: &Metadata) -> io::Result<Replacement> {
        OpenOptions::new().write(true).open(target)?;
        let mut replacement = Replacement::create(target.to_path_buf(), 0o600)?;
        replacement.old = Some(old.clone());
        Ok(replacement)
    }

    fn create(target: PathBuf, mode: u32) -> io::Result<Replacement> {
        // A hasher's keys are random.
        let name = format!(".vaultsearch-{}-{:016x}.tmp", std::process::id(), RandomState::new().build_hasher().finish());
        let path = target.with_file_name(name);
        let none = |error: io::Error| io::Error::new(error.kind(), format!("no temporary file in its folder: {error}"));
        let file = OpenOptions::new().write(true).create_new(true).mode(mode).open(&path).map_err(none)?;
        Ok(Replacement { file, path, target, old: None, renamed: false })
    }

    /// Takes the old file's permissions, and its owner where the system lets, and sees that all bytes are on the disk.
    fn complete(&self) -> io::Result<()> {
        if let Some(old) = &self.old {
            let _ = fchown(&self.file, Some(old.uid()), Some(old.gid()));
            self.file.set_permissions(Permissions::from_mode(old.mode() & 0o7777))?;
        }
        self.file.sync_all()
    }

    fn folder(&self) -> &Path {
        self.target.parent().filter(|folder| !folder.as_os_str().is_empty()).unwrap_or(Path::new("."))
    }

    fn rename(mut self) -> io::Result<()> {
        fs::rename(&self.path, &self.target)?;
        self.renamed = true;
        Ok(())
    }
}

impl Drop for Replacement {
    fn drop(&mut self) {
        if !self.renamed {
            let _ = fs::remove_file(&self.path);
        }
    }
}
