//! Bytes that a graph reads where they are.

use std::fmt;
use std::ops::Deref;
use std::ptr::NonNull;
use std::sync::Arc;

/// Bytes that lie where they are, and stay as they are, as long as a copy of this is kept: those of a `Vec<u8>`, of an
/// `Arc<[u8]>`, of a mapped file or of any other owner. A clone has the same bytes: none of them is copied.
///
/// A graph reads a file that is mapped as the file is then. If another process changes or cuts the file, no promise holds any more:
/// whoever maps a file promises that nobody does. Git writes a new file and renames it.
#[derive(Clone)]
pub struct Bytes {
    /// The bytes of the owner; where there is none, bytes that outlive all copies of this.
    bytes: NonNull<[u8]>,
    _owner: Option<Arc<dyn Send + Sync>>,
}

// SAFETY: nothing changes the bytes as long as this is kept, and any thread may have the owner, and drop it.
unsafe impl Send for Bytes {}
unsafe impl Sync for Bytes {}

impl Bytes {
    /// The bytes of an owner, which is asked for them once, and dropped with the last copy of this.
    #[must_use]
    pub fn of_owner(owner: impl AsRef<[u8]> + Send + Sync + 'static) -> Bytes {
        let owner = Arc::new(owner);
        // The owner does not move any more, and is borrowed from here on until it is dropped: no one else can name it, so that
        // nothing but that borrow can be taken of it. So what it lends here stays as it is until then, by the rules of Rust.
        let bytes = NonNull::from((*owner).as_ref());
        Bytes { bytes, _owner: Some(owner) }
    }

    /// Bytes that are there for ever.
    #[must_use]
    pub fn of_static(bytes: &'static [u8]) -> Bytes {
        Bytes { bytes: NonNull::from(bytes), _owner: None }
    }

    /// Bytes that somebody else keeps.
    ///
    /// # Safety
    ///
    /// They lie where they are, and stay as they are, as long as a copy of this is kept.
    pub(crate) unsafe fn lent(bytes: &[u8]) -> Bytes {
        Bytes { bytes: NonNull::from(bytes), _owner: None }
    }
}

impl Deref for Bytes {
    type Target = [u8];

    #[inline]
    fn deref(&self) -> &[u8] {
        // SAFETY: the owner is kept as long as `self` is; and where there is none, whoever made this has promised it.
        unsafe { self.bytes.as_ref() }
    }
}

impl AsRef<[u8]> for Bytes {
    fn as_ref(&self) -> &[u8] {
        self
    }
}

impl From<Vec<u8>> for Bytes {
    fn from(bytes: Vec<u8>) -> Bytes {
        Bytes::of_owner(bytes)
    }
}

impl From<Box<[u8]>> for Bytes {
    fn from(bytes: Box<[u8]>) -> Bytes {
        Bytes::of_owner(bytes)
    }
}

impl From<Arc<[u8]>> for Bytes {
    fn from(bytes: Arc<[u8]>) -> Bytes {
        Bytes::of_owner(bytes)
    }
}

impl From<&'static [u8]> for Bytes {
    fn from(bytes: &'static [u8]) -> Bytes {
        Bytes::of_static(bytes)
    }
}

/// How many they are.
impl fmt::Debug for Bytes {
    fn fmt(&self, f: &mut fmt::Formatter<'_>) -> fmt::Result {
        f.debug_struct("Bytes").field("len", &self.len()).finish_non_exhaustive()
    }
}
