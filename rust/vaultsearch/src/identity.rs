//! Whether two paths are the same file: by device and inode, so under every path, symbolic link and hard link.

use crate::failure::Failure;
use crate::text;
use std::fs::{self, File, Metadata};
use std::os::fd::AsFd;
use std::os::unix::fs::{FileTypeExt, MetadataExt};
use std::path::Path;

/// Device and inode.
type Identity = (u64, u64);

fn identity(about: &Metadata) -> Identity {
    (about.dev(), about.ino())
}

/// The identity of what keeps data: a regular file or a block device. A terminal may be read and written at once.
fn of_data(about: Metadata) -> Option<Identity> {
    let file_type = about.file_type();
    (file_type.is_file() || file_type.is_block_device()).then(|| identity(&about))
}

fn standard_output() -> Option<Metadata> {
    let file = File::from(std::io::stdout().as_fd().try_clone_to_owned().ok()?);
    file.metadata().ok()
}

/// Whether a path is what standard output goes to, as /dev/stdout is.
pub fn is_standard_output(path: &Path) -> bool {
    match (fs::metadata(path), standard_output()) {
        (Ok(path), Some(standard)) => identity(&path) == identity(&standard),
        _ => false,
    }
}

/// Refuses outputs, standard output among them, that are one of the inputs.
pub fn keep_apart<'a>(outputs: &[&Path], inputs: impl Iterator<Item = &'a Path>) -> Result<(), Failure> {
    let data_at = |path: &Path| fs::metadata(path).ok().and_then(of_data);
    let mut written: Vec<(Identity, String)> =
        outputs.iter().filter_map(|path| Some((data_at(path)?, text::path(path)))).collect();
    written.extend(standard_output().and_then(of_data).map(|identity| (identity, "standard output".into())));
    if written.is_empty() {
        return Ok(());
    }
    for input in inputs {
        let identity = data_at(input);
        if let Some((_, output)) = written.iter().find(|(output, _)| Some(*output) == identity) {
            let input = text::path(input);
            return Err(Failure::Usage(format!("{output} is the input {input}, which is not overwritten: name another output")));
        }
    }
    Ok(())
}

/// Whether two paths are one file: by identity, or where there is none yet, by the folder in which it would be and its name.
pub fn is_one(a: &Path, b: &Path) -> bool {
    let place = |path: &Path| {
        let folder = path.parent().filter(|folder| !folder.as_os_str().is_empty()).unwrap_or(Path::new("."));
        Some((fs::metadata(folder).ok().map(|about| identity(&about))?, path.file_name()?.to_os_string()))
    };
    match (fs::metadata(a), fs::metadata(b)) {
        (Ok(a), Ok(b)) => identity(&a) == identity(&b),
        (Err(_), Err(_)) => a == b || place(a).is_some_and(|of_a| place(b) == Some(of_a)),
        _ => false,
    }
}
