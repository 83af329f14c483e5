//! Stands in for `gix-hash`, with what `gix-commitgraph` and its example use of it, so that they build without a registry.

use std::borrow::Borrow;
use std::fmt;
use std::ops::Deref;

/// A kind of hash.
#[derive(Clone, Copy, Debug, PartialEq, Eq, PartialOrd, Ord, Hash)]
pub enum Kind {
    /// SHA-1, whose ids have 20 bytes.
    Sha1,
    /// SHA-256, whose ids have 32 bytes.
    #[cfg(feature = "sha256")]
    Sha256,
}

impl Kind {
    /// The number of bytes of an id.
    pub fn len_in_bytes(&self) -> usize {
        match self {
            Kind::Sha1 => 20,
            #[cfg(feature = "sha256")]
            Kind::Sha256 => 32,
        }
    }

    fn of_len(len: usize) -> Option<Kind> {
        match len {
            20 => Some(Kind::Sha1),
            #[cfg(feature = "sha256")]
            32 => Some(Kind::Sha256),
            _ => None,
        }
    }
}

impl TryFrom<u8> for Kind {
    type Error = u8;

    fn try_from(number: u8) -> Result<Kind, u8> {
        match number {
            1 => Ok(Kind::Sha1),
            #[cfg(feature = "sha256")]
            2 => Ok(Kind::Sha256),
            _ => Err(number),
        }
    }
}

/// Why bytes or a text are no id.
#[derive(Debug)]
pub struct Error;

/// A borrowed id.
#[allow(non_camel_case_types)]
#[derive(PartialEq, Eq, PartialOrd, Ord, Hash)]
#[repr(transparent)]
pub struct oid([u8]);

impl oid {
    /// The id of these bytes.
    pub fn try_from_bytes(bytes: &[u8]) -> Result<&oid, Error> {
        Kind::of_len(bytes.len()).map(|_| oid::of(bytes)).ok_or(Error)
    }

    fn of(bytes: &[u8]) -> &oid {
        // SAFETY: an `oid` is laid out as the bytes that it has.
        unsafe { &*(std::ptr::from_ref(bytes) as *const oid) }
    }

    /// Its bytes.
    pub fn as_bytes(&self) -> &[u8] {
        &self.0
    }

    /// Its kind of hash.
    pub fn kind(&self) -> Kind {
        Kind::of_len(self.0.len()).expect("an id has the length of a kind")
    }
}

impl fmt::Display for oid {
    fn fmt(&self, f: &mut fmt::Formatter<'_>) -> fmt::Result {
        self.0.iter().try_for_each(|byte| write!(f, "{byte:02x}"))
    }
}

impl fmt::Debug for oid {
    fn fmt(&self, f: &mut fmt::Formatter<'_>) -> fmt::Result {
        write!(f, "{:?}({self})", self.kind())
    }
}

impl AsRef<oid> for &oid {
    fn as_ref(&self) -> &oid {
        self
    }
}

impl ToOwned for oid {
    type Owned = ObjectId;

    fn to_owned(&self) -> ObjectId {
        let mut bytes = [0; 32];
        bytes[..self.0.len()].copy_from_slice(&self.0);
        ObjectId { bytes, len: self.0.len() }
    }
}

/// An id.
#[derive(Clone, Copy, PartialEq, Eq, PartialOrd, Ord, Hash)]
pub struct ObjectId {
    bytes: [u8; 32],
    len: usize,
}

impl ObjectId {
    /// The id that these hexadecimal digits spell.
    pub fn from_hex(hex: &[u8]) -> Result<ObjectId, Error> {
        let digit = |byte: u8| (byte as char).to_digit(16).ok_or(Error);
        let pairs = hex.chunks(2).map(|pair| Ok((16 * digit(pair[0])? + digit(pair[pair.len() - 1])?) as u8));
        oid::try_from_bytes(&pairs.collect::<Result<Vec<_>, _>>()?).map(oid::to_owned)
    }
}

impl Deref for ObjectId {
    type Target = oid;

    fn deref(&self) -> &oid {
        oid::of(&self.bytes[..self.len])
    }
}

impl AsRef<oid> for ObjectId {
    fn as_ref(&self) -> &oid {
        self
    }
}

impl Borrow<oid> for ObjectId {
    fn borrow(&self) -> &oid {
        self
    }
}

impl fmt::Display for ObjectId {
    fn fmt(&self, f: &mut fmt::Formatter<'_>) -> fmt::Result {
        fmt::Display::fmt(&**self, f)
    }
}

impl fmt::Debug for ObjectId {
    fn fmt(&self, f: &mut fmt::Formatter<'_>) -> fmt::Result {
        fmt::Debug::fmt(&**self, f)
    }
}
