//! Stands in for `memmap2`: a file's bytes, which are read.

use std::fs::File;
use std::io::{self, Read};

/// The bytes of a file.
pub struct Mmap(Vec<u8>);

impl Mmap {
    /// Reads a file.
    ///
    /// # Safety
    ///
    /// There is no condition; that of `memmap2` has some.
    pub unsafe fn map(mut file: &File) -> io::Result<Mmap> {
        let mut bytes = Vec::new();
        file.read_to_end(&mut bytes)?;
        Ok(Mmap(bytes))
    }
}

impl AsRef<[u8]> for Mmap {
    fn as_ref(&self) -> &[u8] {
        &self.0
    }
}
