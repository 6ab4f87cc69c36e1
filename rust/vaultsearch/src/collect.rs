//! The files that a vault is made of.

use crate::failure::Failure;
use crate::text::{self, say};
use std::fmt::Display;
use std::io;
use std::path::{Path, PathBuf};

#[derive(Default)]
pub struct Collected {
    /// Regular files, those of a folder sorted by name.
    pub files: Vec<PathBuf>,
    /// Links inside folders, which are not followed, and special files: a vault has neither.
    links: usize,
    special: usize,
    /// What was asked for and couldn't be read, or isn't a file or folder.
    pub left_out: usize,
}

/// The files of these paths, links among the paths followed. What is skipped is named on standard error.
pub fn collect(paths: &[&Path]) -> Result<Collected, Failure> {
    let mut collected = Collected::default();
    for path in paths {
        let about = path.metadata().map_err(|error| Failure::file(path, error))?;
        if about.is_file() {
            collected.files.push(path.to_path_buf());
        } else if about.is_dir() {
            collected.folder(path);
        } else {
            collected.leave_out(Failure::file(path, "neither a file nor a folder"));
        }
    }
    Ok(collected)
}

impl Collected {
    pub fn leave_out(&mut self, what: impl Display) {
        say(format!("left out: {what}"));
        self.left_out += 1;
    }

    fn folder(&mut self, folder: &Path) {
        let mut inside: Vec<PathBuf> = Vec::new();
        let mut list = || -> io::Result<()> {
            for entry in folder.read_dir()? {
                inside.push(entry?.path());
            }
            Ok(())
        };
        if let Err(error) = list() {
            self.leave_out(Failure::file(folder, error));
        }
        inside.sort();
        inside.into_iter().for_each(|path| self.entry(path));
    }

    fn entry(&mut self, path: PathBuf) {
        match path.symlink_metadata() {
            Ok(about) if about.is_file() => self.files.push(path),
            Ok(about) if about.is_dir() => self.folder(&path),
            Ok(about) if about.is_symlink() => {
                say(format!("skipped: {}: a link", text::path(&path)));
                self.links += 1;
            }
            Ok(_) => {
                say(format!("skipped: {}: a special file", text::path(&path)));
                self.special += 1;
            }
            Err(error) => self.leave_out(Failure::file(&path, error)),
        }
    }

    /// How many were skipped, if any.
    pub fn skipped(&self) -> Option<String> {
        let s = |n: usize| if n == 1 { "" } else { "s" };
        let (links, special) = (self.links, self.special);
        (links + special > 0)
            .then(|| format!("skipped {links} link{} and {special} special file{} inside folders", s(links), s(special)))
    }
}
