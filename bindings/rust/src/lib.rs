//! Git's commit-graph files, read, checked and written by proved code, with the calls of `gix-commitgraph`.
//!
//! What is proved stands behind `extern "C"`; this crate is not proved. It keeps the rules of `commitgraph.h` by Rust's
//! types: a [`Graph`] owns its handle and closes it once, what is read borrows it, and each slice is passed whole.
//!
//! Calls say where memory runs out. But paths, the list of a graph's layers and the counts of an [`Outcome`], some bytes each, are
//! those of `std`: it ends the program where there is no memory for them.
//!
//! ```no_run
//! let checked = commitgraph::Checked::at(".git/objects/info")?;
//! for commit in checked.graph().iter_commits() {
//!     println!("{} {:?}", commit.id(), commit.parents()?);
//! }
//! # Ok::<(), Box<dyn std::error::Error>>(())
//! ```

#![deny(missing_docs)]

mod advice;
mod blocks;
mod bytes;
mod checked;
mod chunks;
mod codes;
mod commit;
mod commits;
mod error;
mod file_error;
mod id;
mod layer;
mod lent;
mod limit;
mod many;
mod open;
mod refused;
mod repeated;
mod room;
mod sys;
mod verify;
mod writer;

pub use blocks::{ParentBlock, Record};
pub use bytes::Bytes;
pub use checked::{Checked, Comparison, Reached};
pub use chunks::Probe;
pub use commit::{Commit, Parents};
use commits::Commits;
use error::fault_of;
pub use error::{CommitFault, DatesError, Fault, LayerFault, OpenError, PairError, ParentError, ProbeError, QueryError};
pub use error::{CheckError, Mismatch, VerifyError};
pub use file_error::{FileError, GraphError};
pub use id::{IdError, ObjectId};
pub use layer::{Kind, Layer, LayerOutcome};
pub use lent::Lent;
pub use limit::{Flag, Limit};
use open::open;
pub use open::{chain_lines, LayerFile, Place};
use room::collected;
use std::fmt;
use std::iter::FusedIterator;
use std::path::{Path, PathBuf};
pub use verify::{Outcome, VerifyOptions};
pub use writer::{WriteError, Writer};

/// A position in a graph, over all its layers.
#[derive(Clone, Copy, Debug, PartialEq, Eq, PartialOrd, Ord, Hash)]
#[repr(transparent)]
pub struct Position(
    /// The number of commits that come before it.
    pub u32,
);

impl fmt::Display for Position {
    fn fmt(&self, f: &mut fmt::Formatter<'_>) -> fmt::Result {
        self.0.fmt(f)
    }
}

/// A commit-graph.
pub struct Graph {
    raw: sys::Graph,
    id_len: usize,
    num_commits: u32,
    /// The paths of the files of its layers, which may be empty.
    paths: Vec<PathBuf>,
    /// The bytes of its layers, where they are lent to `raw`; else none. They are dropped after `raw` is closed.
    bytes: Vec<Bytes>,
}

// SAFETY: the calls that take `&Graph` may run at a time (`commitgraph.h`, "Threads"): they only read what it owns, but for the
// memory of searches, which one call at a time has. `drop` has the graph to itself. Nothing in it belongs to a thread.
unsafe impl Send for Graph {}
unsafe impl Sync for Graph {}

impl Drop for Graph {
    fn drop(&mut self) {
        // SAFETY: `raw` is what `cg_open` wrote, and no copy of it is used from here on.
        unsafe { sys::cg_close(&mut self.raw) };
    }
}

/// The number of commits stands for the graph.
impl fmt::Debug for Graph {
    fn fmt(&self, f: &mut fmt::Formatter<'_>) -> fmt::Result {
        f.debug_struct("Graph").field("num_commits", &self.num_commits()).finish_non_exhaustive()
    }
}

impl Graph {
    /// Opens the graph at a path: a file, a folder with a chain, or an info folder. Each file is read once, and its bytes are kept.
    ///
    /// # Errors
    ///
    /// The first that holds:
    ///
    /// 1. `Io`: nothing stands at the path, or a file that is to be read is not there, may not be read, or a read of it failed.
    /// 2. `ChainLine`: a line of the chain file is not UTF-8.
    /// 3. `Layer`: the bytes of a layer are refused.
    /// 4. `Graph`: the layers make no graph.
    ///
    /// Of a chain the first line of which 1 to 3 hold is told. Of an info folder the error is that of the chain, where the file is not
    /// there; that of the file, where the chain is not; and else `Neither`. `OutOfMemory` may come before any of these.
    pub fn at(path: impl AsRef<Path>) -> Result<Graph, OpenError> {
        open(path.as_ref(), Place::Anything)
    }

    /// Opens the graph of one file.
    ///
    /// # Errors
    ///
    /// `Io`, `Layer` and `OutOfMemory` of [`Graph::at`].
    pub fn from_file(path: impl AsRef<Path>) -> Result<Graph, OpenError> {
        open(path.as_ref(), Place::File)
    }

    /// Opens the graph of an info folder: its file `commit-graph`, or where that is not there or is refused, the chain in its
    /// folder `commit-graphs`; but not where memory ran out.
    ///
    /// # Errors
    ///
    /// Those of [`Graph::at`].
    pub fn from_info_dir(path: impl AsRef<Path>) -> Result<Graph, OpenError> {
        open(path.as_ref(), Place::InfoFolder)
    }

    /// Opens the graph of a folder with a file `commit-graph-chain`.
    ///
    /// # Errors
    ///
    /// Those of [`Graph::at`] but for `Neither`.
    pub fn from_commit_graphs_dir(path: impl AsRef<Path>) -> Result<Graph, OpenError> {
        open(path.as_ref(), Place::ChainFolder)
    }

    /// Opens the graph of what a path is taken for, and hands out the files that were read for its layers too, the lowest first. Their
    /// bytes are those that the graph reads: none is copied.
    ///
    /// # Errors
    ///
    /// Those of [`Graph::at`].
    pub fn open_with_files(path: impl AsRef<Path>, place: Place) -> Result<(Graph, Vec<LayerFile>), OpenError> {
        open::with_files(path.as_ref(), place)
    }

    /// The graph of these files, the lowest layer first, whose bytes it keeps and reads where they are. None is copied.
    ///
    /// # Errors
    ///
    /// `Layer`, `Graph` or `OutOfMemory`, the first that holds.
    pub fn of_files(files: Vec<LayerFile>) -> Result<Graph, OpenError> {
        open::of_files(files)
    }

    /// The graph of layers whose bytes are lent to it, each with the path of its file, the lowest first. None is copied: so a program
    /// that maps files opens them where they are.
    ///
    /// # Errors
    ///
    /// Those of [`Graph::of_files`].
    pub fn of_lent<'b>(layers: &[(&'b [u8], &str)]) -> Result<Lent<'b, Graph>, OpenError> {
        // SAFETY: the bytes are borrowed as long as there is a `Lent`, which hands out no graph.
        unsafe { Graph::lend(layers) }.map(Lent::new)
    }

    /// The graph of layers whose bytes are at hand, each with the path of its file, the lowest first. They are copied.
    ///
    /// # Errors
    ///
    /// Those of [`Graph::of_files`].
    pub fn of_bytes(layers: &[(&[u8], &str)]) -> Result<Graph, OpenError> {
        Graph::opened(layers, |files, raw, _| {
            // SAFETY: each pointer and length are those of one slice, and none is null; `raw` is CG_CLOSED.
            unsafe { sys::cg_open(files.as_ptr(), files.len(), raw) }
        })
        .map(|(graph, _)| graph)
    }

    /// The graph of layers whose bytes are lent for ever, each with the path of its file, the lowest first. The bytes stay where
    /// they are, and none is copied.
    ///
    /// # Errors
    ///
    /// Those of [`Graph::of_files`].
    pub fn of_static(layers: &[(&'static [u8], &str)]) -> Result<Graph, OpenError> {
        // SAFETY: the bytes stay as they are for ever.
        unsafe { Graph::lend(layers) }
    }

    /// The graph of layers whose bytes are lent to it, each with the path of its file, the lowest first.
    ///
    /// # Safety
    ///
    /// The bytes lie where they are, and stay as they are, until the graph is dropped.
    pub(crate) unsafe fn lend(layers: &[(&[u8], &str)]) -> Result<Graph, OpenError> {
        let (firsts, places) = repeated::firsts_and_places(layers).map_err(|_| OpenError::OutOfMemory)?;
        let (mut graph, _) = Graph::opened(layers, |files, raw, _| {
            if firsts.len() == files.len() {
                // SAFETY: as in `of_bytes`; and the caller promises that the bytes stay.
                return unsafe { sys::cg_open_lent(files.as_ptr(), files.len(), raw) };
            }
            let Ok(files) = collected(firsts.iter().map(|&first| files[first])) else {
                return sys::Error { code: codes::OUT_OF_MEMORY, layer: 0 };
            };
            // SAFETY: the same of fewer files, and of the places.
            unsafe { sys::cg_open_chain(files.as_ptr(), files.len(), places.as_ptr(), places.len(), raw) }
        })?;
        // SAFETY: the caller promises it.
        let bytes = layers.iter().map(|(bytes, _)| unsafe { Bytes::lent(bytes) });
        graph.bytes = collected(bytes).map_err(|_| OpenError::OutOfMemory)?;
        Ok(graph)
    }

    /// The graph that a call has opened, of files at these paths.
    pub(crate) fn of_raw(raw: sys::Graph, paths: Vec<PathBuf>) -> Graph {
        // SAFETY: `raw` is open.
        unsafe { Graph { id_len: sys::cg_id_len(raw), num_commits: sys::cg_num_commits(raw), raw, paths, bytes: Vec::new() } }
    }

    /// The graph that a call opens, and the verdict that it may write.
    fn opened(
        layers: &[(&[u8], &str)],
        open: impl FnOnce(&[sys::File], &mut sys::Graph, &mut sys::Verdict) -> sys::Error,
    ) -> Result<(Graph, sys::Verdict), OpenError> {
        let file = |&(bytes, path): &(&[u8], &str)| sys::File {
            bytes: bytes.as_ptr(),
            len: bytes.len(),
            path: path.as_ptr(),
            path_len: path.len(),
        };
        let files = collected(layers.iter().map(file)).map_err(|_| OpenError::OutOfMemory)?;
        let mut raw = sys::CLOSED;
        let mut verdict = sys::Verdict::default();
        let error = open(&files, &mut raw, &mut verdict);
        let layer = error.layer as usize;
        match error.code {
            codes::OK => Ok((Graph::of_raw(raw, paths_of(layers)), verdict)),
            codes::OUT_OF_MEMORY => Err(OpenError::OutOfMemory),
            code => Err(match (FileError::of(code), GraphError::of(code, layer)) {
                (Some(error), _) => OpenError::Layer { layer, path: layers[layer].1.into(), error },
                (_, Some(error)) => OpenError::Graph { path: PathBuf::new(), error },
                _ => OpenError::Check(refused::of_layers(layers, fault_of(&verdict))),
            }),
        }
    }

    /// The number of commits.
    #[must_use]
    #[inline]
    pub fn num_commits(&self) -> u32 {
        self.num_commits
    }

    /// The position of an id. A position that is answered holds the id.
    #[must_use]
    pub fn lookup(&self, id: impl AsRef<[u8]>) -> Option<Position> {
        let id = id.as_ref();
        // SAFETY: here and below, `raw` is open, since only `drop` closes it; and the pointer and the length are those of a slice.
        let pos = unsafe { sys::cg_lookup(self.raw, id.as_ptr(), id.len()) };
        (pos != u32::MAX).then_some(Position(pos))
    }

    /// The commit with an id.
    #[must_use]
    #[inline]
    pub fn commit_by_id(&self, id: impl AsRef<[u8]>) -> Option<Commit<'_>> {
        Some(Commit::new(self, self.lookup(id)?, None))
    }

    /// The commit at a position. Panics where the position is none, as `gix-commitgraph` does.
    #[must_use]
    #[inline]
    pub fn commit_at(&self, pos: Position) -> Commit<'_> {
        assert!(pos.0 < self.num_commits(), "position {} of {} commits", pos.0, self.num_commits());
        Commit::new(self, pos, None)
    }

    /// The id at a position. Panics where the position is none.
    #[must_use]
    #[inline]
    pub fn id_at(&self, pos: Position) -> ObjectId {
        self.commit_at(pos).id()
    }

    /// The commits, in order. Their parents are read ahead, those of many commits at a time.
    #[must_use]
    #[inline]
    pub fn iter_commits(&self) -> impl ExactSizeIterator<Item = Commit<'_>> + FusedIterator {
        Commits::new(self)
    }

    /// The ids, in order.
    #[must_use]
    #[inline]
    pub fn iter_ids(&self) -> impl ExactSizeIterator<Item = ObjectId> + FusedIterator + '_ {
        (0..self.num_commits()).map(|pos| Commit::new(self, Position(pos), None).id())
    }
}

/// The paths of the files of layers.
fn paths_of(layers: &[(&[u8], &str)]) -> Vec<PathBuf> {
    layers.iter().map(|(_, path)| path.into()).collect()
}

/// Opens the graph at a path.
///
/// # Errors
///
/// Those of [`Graph::at`].
pub fn at(path: impl AsRef<Path>) -> Result<Graph, OpenError> {
    Graph::at(path)
}

/// The version of the library that is linked: 10000 for its first number, 100 for the second and 1 for the third.
#[must_use]
pub fn version() -> u32 {
    // SAFETY: nothing is passed.
    unsafe { sys::cg_version() }
}
