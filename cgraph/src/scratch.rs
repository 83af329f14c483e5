//! Files of a moment, in a folder that goes away with the program.

use std::collections::hash_map::RandomState;
use std::env;
use std::fs::{self, DirBuilder, File, OpenOptions};
use std::hash::{BuildHasher, Hasher};
use std::io::{self, Write};
use std::os::unix::fs::DirBuilderExt;
use std::path::{Path, PathBuf};
use std::sync::{Arc, OnceLock};

use crate::error::Error;
use crate::guard::Guard;

/// The folder, which is made when the first file is.
pub struct Scratch {
    guard: Arc<Guard>,
    folder: OnceLock<PathBuf>,
}

impl Scratch {
    /// No folder yet.
    pub fn new(guard: &Arc<Guard>) -> Self {
        Scratch { guard: Arc::clone(guard), folder: OnceLock::new() }
    }

    /// The folder in which the other is made.
    pub fn parent() -> PathBuf {
        let named = env::var_os("TMPDIR").filter(|path| !path.is_empty());
        named.map_or_else(|| PathBuf::from("/tmp"), PathBuf::from)
    }

    /// The folder.
    pub fn folder(&self) -> Result<&Path, Error> {
        if let Some(folder) = self.folder.get() {
            return Ok(folder);
        }
        let folder = self.make().map_err(|_| Error::NoScratch(Self::parent()))?;
        Ok(self.folder.get_or_init(|| folder))
    }

    /// The path of a file there.
    pub fn path(&self, name: &str) -> Result<PathBuf, Error> {
        Ok(self.folder()?.join(name))
    }

    /// Begins a file there.
    pub fn create(&self, name: &str) -> Result<File, Error> {
        File::create(self.path(name)?).map_err(|_| self.no_file())
    }

    /// The error where no file can be made there.
    pub fn no_file(&self) -> Error {
        Error::NoMomentFile(Self::parent())
    }

    /// Makes a folder of a name that nobody knows before.
    fn make(&self) -> io::Result<PathBuf> {
        const TRIES: usize = 100;
        let parent = Self::parent();
        let mut made = self.guard.moment();
        for _ in 0..TRIES {
            let number = RandomState::new().build_hasher().finish();
            let folder = parent.join(format!("git-cgraph.{number:016x}"));
            match DirBuilder::new().mode(0o700).create(&folder) {
                Err(error) if error.kind() == io::ErrorKind::AlreadyExists => continue,
                other => other?,
            }
            made.add_folder(&folder);
            return Ok(folder);
        }
        Err(io::ErrorKind::AlreadyExists.into())
    }

    /// Whether the folder takes no more: some file there cannot grow.
    pub fn is_full(&self) -> bool {
        let Some(folder) = self.folder.get() else { return false };
        let entries = fs::read_dir(folder).into_iter().flatten().flatten();
        entries.filter(|entry| entry.file_type().is_ok_and(|kind| kind.is_file())).any(|entry| {
            let opened = OpenOptions::new().append(true).open(entry.path());
            opened.and_then(|mut file| file.write_all(&[0; 8192])).is_err()
        })
    }

    /// Removes the folder.
    pub fn remove(&self) {
        if let Some(folder) = self.folder.get() {
            let _ = fs::remove_dir_all(folder);
        }
    }
}
