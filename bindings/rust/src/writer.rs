//! Writing a layer.

use crate::room::{collected, room_for};
use crate::{codes, sys, Checked, DatesError, Position};
use std::collections::TryReserveError;
use std::fmt;

/// The commits that a layer is to have, in any order, and the graph that it is to lie on.
///
/// ```no_run
/// # fn tip() -> ([u8; 20], [u8; 20], Vec<[u8; 20]>, u64) { unimplemented!() }
/// let below = commitgraph::Checked::at(".git/objects/info")?;
/// let mut writer = commitgraph::Writer::on(&below);
/// let (id, tree, parents, time) = tip();
/// writer.add(id, tree, parents, time)?;
/// let file = writer.write()?;
/// # Ok::<(), Box<dyn std::error::Error>>(())
/// ```
#[derive(Debug)]
pub struct Writer<'g> {
    below: Option<&'g Checked>,
    /// The ids of all commits, of each its own, that of its tree and those of its parents.
    ids: Vec<u8>,
    commits: Vec<Added>,
}

/// A commit that was added: how many bytes its ids have, and when it was made.
#[derive(Clone, Copy, Debug)]
struct Added {
    id: usize,
    tree: usize,
    parents: usize,
    time: u64,
}

impl Default for Writer<'_> {
    fn default() -> Self {
        Writer::new()
    }
}

impl Writer<'static> {
    /// For a file that is alone.
    #[must_use]
    pub fn new() -> Writer<'static> {
        Writer { below: None, ids: Vec::new(), commits: Vec::new() }
    }
}

impl<'g> Writer<'g> {
    /// For a layer on top of a graph, whose layers are then those below it.
    #[must_use]
    pub fn on(below: &'g Checked) -> Writer<'g> {
        Writer { below: Some(below), ids: Vec::new(), commits: Vec::new() }
    }

    /// The number of commits that were added.
    #[must_use]
    pub fn len(&self) -> usize {
        self.commits.len()
    }

    /// Whether no commit was added.
    #[must_use]
    pub fn is_empty(&self) -> bool {
        self.commits.is_empty()
    }

    /// Adds a commit: its id, that of its root tree, those of its parents, first parent first, and the committer's time, in
    /// seconds since 1970-01-01 00:00:00 UTC. Its parents may be added later, or be in the graph below.
    ///
    /// # Errors
    ///
    /// `NoIds` where an id of a parent has another length than the commit's own; `OutOfMemory`. The commit is not added then.
    pub fn add<P: AsRef<[u8]>>(
        &mut self,
        id: impl AsRef<[u8]>,
        tree: impl AsRef<[u8]>,
        parents: impl IntoIterator<Item = P>,
        time: u64,
    ) -> Result<(), WriteError> {
        let (id, tree, before) = (id.as_ref(), tree.as_ref(), self.ids.len());
        let added = self.put(id, tree, parents).and_then(|parents| {
            self.commits.try_reserve(1)?;
            self.commits.push(Added { id: id.len(), tree: tree.len(), parents, time });
            Ok(())
        });
        if added.is_err() {
            self.ids.truncate(before);
        }
        added
    }

    /// Puts the ids of a commit behind the others, and answers how many bytes those of its parents have.
    fn put<P: AsRef<[u8]>>(
        &mut self,
        id: &[u8],
        tree: &[u8],
        parents: impl IntoIterator<Item = P>,
    ) -> Result<usize, WriteError> {
        self.ids.try_reserve(id.len() + tree.len())?;
        self.ids.extend_from_slice(id);
        self.ids.extend_from_slice(tree);
        let start = self.ids.len();
        for parent in parents {
            let parent = parent.as_ref();
            if parent.len() != id.len() {
                return Err(WriteError::NoIds { commit: self.commits.len() });
            }
            self.ids.try_reserve(parent.len())?;
            self.ids.extend_from_slice(parent);
        }
        Ok(self.ids.len() - start)
    }

    /// The bytes of the layer's file: what Git writes of these commits, without changed-path filters. It has corrected dates where
    /// all layers below have them, as where there are none. The checksum, by which the file of a chain is named
    /// `graph-X.graph`, is its end.
    ///
    /// # Errors
    ///
    /// The first that holds, in the order of [`WriteError`].
    pub fn write(&self) -> Result<Vec<u8>, WriteError> {
        let mut rest = &self.ids[..];
        let mut take = |len: usize| {
            let (front, back) = rest.split_at(len);
            rest = back;
            front.as_ptr()
        };
        let handed = collected(self.commits.iter().map(|added| sys::NewCommit {
            id: take(added.id),
            id_len: added.id,
            tree: take(added.tree),
            tree_len: added.tree,
            parents: take(added.parents),
            parents_len: added.parents,
            time: added.time,
        }))?;
        let below = self.below.map_or(sys::CLOSED, |checked| checked.as_ref().raw);
        let mut file = File { raw: sys::NO_BYTES };
        // SAFETY: `below` is closed, or open since it is borrowed; each pointer and length are those of a slice, none is null;
        // and `raw` is CG_NO_BYTES.
        let told = unsafe { sys::cg_write(below, handed.as_ptr(), handed.len(), &mut file.raw) };
        drop(handed);
        match told.code {
            codes::OK => Ok(file.bytes()?),
            _ => Err(WriteError::of(&told)),
        }
    }
}

/// The bytes of a file, or none, as the library keeps them.
struct File {
    raw: sys::Bytes,
}

impl File {
    fn bytes(&self) -> Result<Vec<u8>, TryReserveError> {
        let mut lent = sys::NOT_LENT;
        // SAFETY: here and below, `raw` is what `cg_write` wrote; and `lent` is CG_NOT_LENT.
        unsafe { sys::cg_lend_bytes(self.raw, &mut lent) };
        let mut bytes = room_for(0, lent.len)?;
        // SAFETY: the pointer and the length are those of a vector.
        unsafe { sys::cg_bytes_copy(self.raw, 0, bytes.as_mut_ptr(), bytes.len()) };
        Ok(bytes)
    }
}

impl Drop for File {
    fn drop(&mut self) {
        // SAFETY: no copy of `raw` is used from here on.
        unsafe { sys::cg_bytes_free(&mut self.raw) };
    }
}

/// Why no layer is written: the first that holds. Commits are named by their numbers among those that were added, and a commit's
/// parents by their numbers among its own; both count from 0.
#[derive(Clone, Copy, Debug, PartialEq, Eq)]
#[non_exhaustive]
pub enum WriteError {
    /// An id of the commit has neither 20 nor 32 bytes, or another length than its own.
    NoIds {
        /// The commit.
        commit: usize,
    },
    /// An id of the commit is of another kind than the first commit, or than the graph below.
    Kind {
        /// The commit.
        commit: usize,
    },
    /// The id of the commit is null.
    NullId {
        /// The commit.
        commit: usize,
    },
    /// The id of the commit's root tree is null.
    NullTree {
        /// The commit.
        commit: usize,
    },
    /// The time of the commit is 2^34 or more.
    Time {
        /// The commit.
        commit: usize,
    },
    /// The commit was added twice.
    Twice {
        /// The commit.
        commit: usize,
        /// The earlier one with its id.
        earlier: usize,
    },
    /// The graph below has the commit.
    Below {
        /// The commit.
        commit: usize,
        /// Its first position in the graph below.
        pos: Position,
    },
    /// With the graph below there are more than 1,879,048,191 commits.
    TooManyCommits,
    /// A parent of the commit is neither added nor in the graph below.
    Parent {
        /// The commit.
        commit: usize,
        /// The parent.
        index: usize,
    },
    /// No commit was added. Git writes no file then.
    Nothing,
    /// The corrected dates of the graph below are wrong.
    Dates(DatesError),
    /// The commit is its own ancestor. Where several are, it may be any of them.
    Cycle {
        /// The commit.
        commit: usize,
    },
    /// The graph below has 256 layers.
    TooManyLayers,
    /// There are 2^31 parents past the first of commits with more than two.
    TooManyEdges,
    /// Memory ran out. It may stand before all of these but the first.
    OutOfMemory,
}

impl WriteError {
    /// The error that an answer tells of.
    fn of(told: &sys::WriteError) -> WriteError {
        let (commit, other) = (told.commit as usize, told.other as usize);
        match told.code {
            codes::WRITE_NO_IDS => WriteError::NoIds { commit },
            codes::WRITE_KIND => WriteError::Kind { commit },
            codes::WRITE_NULL_ID => WriteError::NullId { commit },
            codes::WRITE_NULL_TREE => WriteError::NullTree { commit },
            codes::WRITE_TIME => WriteError::Time { commit },
            codes::WRITE_TWICE => WriteError::Twice { commit, earlier: other },
            codes::WRITE_BELOW => WriteError::Below { commit, pos: Position(told.position) },
            codes::WRITE_PARENT => WriteError::Parent { commit, index: other },
            codes::WRITE_CYCLE => WriteError::Cycle { commit },
            codes::WRITE_NOTHING => WriteError::Nothing,
            codes::WRITE_TOO_MANY_COMMITS => WriteError::TooManyCommits,
            codes::WRITE_TOO_MANY_EDGES => WriteError::TooManyEdges,
            codes::WRITE_TOO_MANY_LAYERS => WriteError::TooManyLayers,
            codes::OUT_OF_MEMORY => WriteError::OutOfMemory,
            code => WriteError::Dates(DatesError::of(&sys::Dates {
                code,
                position: told.position,
                layer: told.layer,
                expected: told.expected,
                length: 0,
            })),
        }
    }
}

impl fmt::Display for WriteError {
    fn fmt(&self, f: &mut fmt::Formatter<'_>) -> fmt::Result {
        match self {
            WriteError::NoIds { commit } => {
                write!(f, "commit {commit}: an id has neither 20 nor 32 bytes, or another length than the commit's own")
            }
            WriteError::Kind { commit } => {
                write!(f, "commit {commit}: an id is of another kind of hash than the first commit, or than the graph below")
            }
            WriteError::NullId { commit } => write!(f, "commit {commit}: its id is null"),
            WriteError::NullTree { commit } => write!(f, "commit {commit}: its root tree is null"),
            WriteError::Time { commit } => write!(f, "commit {commit}: its time is past 34 bits"),
            WriteError::Twice { commit, earlier } => write!(f, "commit {commit}: commit {earlier} is the same"),
            WriteError::Below { commit, pos } => write!(f, "commit {commit}: the graph below has it, at position {pos}"),
            WriteError::TooManyCommits => f.write_str("with the graph below there are more than 1,879,048,191 commits"),
            WriteError::Parent { commit, index } => {
                write!(f, "commit {commit}: its parent with index {index} is neither added nor in the graph below")
            }
            WriteError::Nothing => f.write_str("no commit was added"),
            WriteError::Dates(_) => f.write_str("the corrected dates of the graph below are wrong"),
            WriteError::Cycle { commit } => write!(f, "commit {commit}: it is its own ancestor"),
            WriteError::TooManyLayers => f.write_str("the graph below has 256 layers"),
            WriteError::TooManyEdges => {
                f.write_str("there are 2^31 parents past the first of commits with more than two")
            }
            WriteError::OutOfMemory => f.write_str("memory ran out"),
        }
    }
}

impl std::error::Error for WriteError {
    fn source(&self) -> Option<&(dyn std::error::Error + 'static)> {
        match self {
            WriteError::Dates(error) => Some(error),
            _ => None,
        }
    }
}

impl From<TryReserveError> for WriteError {
    fn from(_: TryReserveError) -> WriteError {
        WriteError::OutOfMemory
    }
}
