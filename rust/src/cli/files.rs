//! Writing files whole or not at all.

use super::Failure;
use std::fs::{self, OpenOptions};
use std::io::{self, ErrorKind, Write};
use std::path::{Path, PathBuf};

/// Files that are written under other names beside their places. Unless they are put there, they
/// go with this value.
pub struct Staged<'a> {
    files: Vec<(PathBuf, &'a Path)>,
}

impl<'a> Staged<'a> {
    pub fn new(files: &[(&'a Path, &[u8])]) -> Result<Staged<'a>, Failure> {
        let mut staged = Staged { files: Vec::new() };
        for (path, bytes) in files {
            staged.add(path, bytes)?;
        }
        Ok(staged)
    }

    fn add(&mut self, path: &'a Path, bytes: &[u8]) -> Result<(), Failure> {
        check(path)?;
        let name = format!(".pemzhulaq.{}.{}.tmp", std::process::id(), self.files.len());
        let temporary = path.with_file_name(name);
        let opened = OpenOptions::new().write(true).create_new(true).open(&temporary);
        let mut file = opened.map_err(|error| at(path, error))?;
        self.files.push((temporary, path));
        file.write_all(bytes).map_err(|error| at(path, error))
    }

    /// Gives the files their names. Nothing is left that can go wrong but the system's refusal to
    /// rename a file.
    pub fn put(mut self) -> Result<(), Failure> {
        while let Some((temporary, path)) = self.files.last() {
            fs::rename(temporary, path).map_err(|error| at(path, error))?;
            self.files.pop();
        }
        Ok(())
    }
}

impl Drop for Staged<'_> {
    fn drop(&mut self) {
        for (temporary, _) in &self.files {
            let _ = fs::remove_file(temporary);
        }
    }
}

/// A name that is free or is a plain file's. Devices, folders and links are not replaced.
fn check(path: &Path) -> Result<(), Failure> {
    match fs::symlink_metadata(path) {
        Ok(found) if found.is_file() => Ok(()),
        Ok(_) => Err(at(path, io::Error::other("not a plain file (- is standard output)"))),
        Err(error) if error.kind() == ErrorKind::NotFound && path.file_name().is_some() => Ok(()),
        Err(error) => Err(at(path, error)),
    }
}

fn at(path: &Path, error: io::Error) -> Failure {
    Failure::wrong(format!("cannot write {}: {error}", path.display()))
}
