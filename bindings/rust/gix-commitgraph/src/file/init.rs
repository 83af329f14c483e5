//! Opening a file.

use crate::layers::Layers;
use crate::{Error, File};
use commitgraph::{Bytes, LayerFile, Place};
use std::path::{Path, PathBuf};

impl File {
    /// Opens the file at a path, which is read.
    ///
    /// # Errors
    ///
    /// It cannot be read, its bytes are no layer, or memory ran out.
    pub fn at(path: impl AsRef<Path>) -> Result<File, Error> {
        File::try_from(path.as_ref())
    }

    /// The file of these bytes, as though it stood at a path. They are read where they are, and dropped with the file, and with the
    /// graph that it may become a part of: a `memmap2::Mmap` is opened without a copy.
    ///
    /// # Errors
    ///
    /// The bytes are no layer, or memory ran out.
    pub fn new(data: impl AsRef<[u8]> + Send + Sync + 'static, path: PathBuf) -> Result<File, Error> {
        Ok(File { layers: Layers::of_files(vec![LayerFile { path, bytes: Bytes::of_owner(data) }])? })
    }
}

impl TryFrom<&Path> for File {
    type Error = Error;

    fn try_from(path: &Path) -> Result<File, Error> {
        Ok(File { layers: Layers::open(path, Place::File)? })
    }
}
