//! Read, check and walk Git's commit-graphs, with the names and signatures of `gix-commitgraph` 0.39.0, over proved code.
//!
//! The library behind `nolavimure-commitgraph`, whose code is proved, opens the files, checks them, looks up ids, and tells the
//! parents of a commit that its record has not all, or has wrong. What stands at a place of a file that it has opened is read there by
//! this crate, which is not proved: ids, trees, times, generation numbers, up to two parents, base ids and the checksum.

#![deny(missing_docs, unsafe_code)]

mod access;
mod error;
pub mod file;
pub mod init;
mod layers;
pub mod verify;

pub use commitgraph::Position;
pub use error::Error;
use layers::Layers;
use std::path::Path;

/// A file of a commit-graph, alone: its positions are those of [`file::Position`], and what stands above or below it is not known.
pub struct File {
    layers: Layers,
}

/// A commit-graph: that of one file, or of a chain of them.
pub struct Graph {
    layers: Layers,
}

/// Opens the graph at a path: that of an info folder, of a folder with a chain, or of a file.
///
/// # Errors
///
/// As of [`Graph::at`].
pub fn at(path: impl AsRef<Path>) -> Result<Graph, Error> {
    Graph::at(path.as_ref())
}

/// The generation number that stands for none.
pub const GENERATION_NUMBER_INFINITY: u32 = 0xffff_ffff;

/// The greatest generation number: that of each commit whose own would be greater.
pub const GENERATION_NUMBER_MAX: u32 = 0x3fff_ffff;

/// The greatest number of commits of a graph.
pub const MAX_COMMITS: u32 = (1 << 30) + (1 << 29) + (1 << 28) - 1;
