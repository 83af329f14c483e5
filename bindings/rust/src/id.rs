//! Ids of objects.

use std::fmt;
use std::str::FromStr;

/// An id of 20 bytes (SHA-1) or 32 (SHA-256).
#[derive(Clone, Copy, PartialEq, Eq, PartialOrd, Ord, Hash)]
pub struct ObjectId {
    pub(crate) bytes: [u8; 32],
    pub(crate) len: u8,
}

impl ObjectId {
    /// The id of these bytes, or `None` where they are neither 20 nor 32.
    #[must_use]
    pub fn try_from_bytes(from: &[u8]) -> Option<ObjectId> {
        ObjectId::try_from(from).ok()
    }

    /// The id that these hexadecimal digits spell, or `None` where they are neither 40 nor 64 such digits.
    #[must_use]
    pub fn from_hex(hex: &str) -> Option<ObjectId> {
        hex.parse().ok()
    }

    /// Its bytes.
    #[must_use]
    pub fn as_bytes(&self) -> &[u8] {
        &self.bytes[..self.len as usize]
    }
}

impl TryFrom<&[u8]> for ObjectId {
    type Error = IdError;

    fn try_from(from: &[u8]) -> Result<ObjectId, IdError> {
        if from.len() != 20 && from.len() != 32 {
            return Err(IdError::Length);
        }
        let mut bytes = [0; 32];
        bytes[..from.len()].copy_from_slice(from);
        Ok(ObjectId { bytes, len: from.len() as u8 })
    }
}

/// In hexadecimal.
impl FromStr for ObjectId {
    type Err = IdError;

    fn from_str(hex: &str) -> Result<ObjectId, IdError> {
        if hex.len() != 40 && hex.len() != 64 {
            return Err(IdError::Length);
        }
        let mut id = ObjectId { bytes: [0; 32], len: (hex.len() / 2) as u8 };
        for (byte, pair) in id.bytes.iter_mut().zip(hex.as_bytes().chunks(2)) {
            *byte = 16 * digit(pair[0])? + digit(pair[1])?;
        }
        Ok(id)
    }
}

fn digit(byte: u8) -> Result<u8, IdError> {
    (byte as char).to_digit(16).map(|digit| digit as u8).ok_or(IdError::Digit)
}

/// Why bytes or a text are no id.
#[derive(Clone, Copy, Debug, PartialEq, Eq)]
#[non_exhaustive]
pub enum IdError {
    /// There are neither 20 nor 32 bytes, and neither 40 nor 64 characters.
    Length,
    /// A character is no hexadecimal digit.
    Digit,
}

impl fmt::Display for IdError {
    fn fmt(&self, f: &mut fmt::Formatter<'_>) -> fmt::Result {
        f.write_str(match self {
            IdError::Length => "an id has 20 or 32 bytes, or 40 or 64 hexadecimal digits",
            IdError::Digit => "a text that was given for an id has a character that is no hexadecimal digit",
        })
    }
}

impl std::error::Error for IdError {}

impl AsRef<[u8]> for ObjectId {
    fn as_ref(&self) -> &[u8] {
        self.as_bytes()
    }
}

/// In hexadecimal.
impl fmt::Display for ObjectId {
    fn fmt(&self, f: &mut fmt::Formatter<'_>) -> fmt::Result {
        self.as_bytes().iter().try_for_each(|byte| write!(f, "{byte:02x}"))
    }
}

impl fmt::Debug for ObjectId {
    fn fmt(&self, f: &mut fmt::Formatter<'_>) -> fmt::Result {
        fmt::Display::fmt(self, f)
    }
}
