//! A file of a commit-graph.

mod access;
pub mod commit;
mod init;
pub mod verify;

pub use commit::Commit;
use std::fmt;

/// A position in a file, where ids stand in their order; another type than [`Position`](crate::Position), which counts over all
/// files of a graph.
#[derive(Clone, Copy, Debug, Eq, Hash, Ord, PartialEq, PartialOrd)]
pub struct Position(
    /// The number of commits that come before it.
    pub u32,
);

impl fmt::Display for Position {
    fn fmt(&self, f: &mut fmt::Formatter<'_>) -> fmt::Result {
        self.0.fmt(f)
    }
}
