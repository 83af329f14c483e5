//! A commit of a graph, and its parents.

use crate::room::{collected, room_for};
use crate::{codes, sys, Graph, Mismatch, ObjectId, ParentError, Position, Record};
use std::fmt;
use std::iter::FusedIterator;
use std::vec::IntoIter;

/// Of a commit with at most so many parents they stand in no memory of their own.
pub(crate) const FEW: usize = 2;

/// A commit of a graph.
#[derive(Clone, Copy)]
pub struct Commit<'g> {
    graph: &'g Graph,
    pos: Position,
    known: Option<Few>,
}

/// All parents of a commit that has few: as many of these positions as the count says.
// The positions lie side by side at its start, so that a copy reads them as they were written: by one load.
#[derive(Clone, Copy, Debug)]
#[repr(C)]
pub(crate) struct Few {
    pub(crate) positions: [Position; FEW],
    pub(crate) count: u32,
}

impl fmt::Debug for Commit<'_> {
    fn fmt(&self, f: &mut fmt::Formatter<'_>) -> fmt::Result {
        f.debug_struct("Commit").field("position", &self.pos.0).field("id", &self.id()).finish_non_exhaustive()
    }
}

impl<'g> Commit<'g> {
    /// The commit at a position; and its parents, where they are known.
    #[inline]
    pub(crate) fn new(graph: &'g Graph, pos: Position, known: Option<Few>) -> Commit<'g> {
        Commit { graph, pos, known }
    }

    /// Its position in the graph.
    #[must_use]
    #[inline]
    pub fn position(&self) -> Position {
        self.pos
    }

    /// Its id.
    #[must_use]
    #[inline]
    pub fn id(&self) -> ObjectId {
        let mut id = ObjectId { bytes: [0; 32], len: self.graph.id_len as u8 };
        // SAFETY: the array has room for an id of either length.
        unsafe { sys::cg_id_at(self.graph.raw, self.pos.0, id.bytes.as_mut_ptr(), self.graph.id_len) };
        id
    }

    /// The id of its root tree.
    #[must_use]
    #[inline]
    pub fn root_tree_id(&self) -> ObjectId {
        let mut id = ObjectId { bytes: [0; 32], len: self.graph.id_len as u8 };
        // SAFETY: the array has room for an id of either length.
        unsafe { sys::cg_tree_at(self.graph.raw, self.pos.0, id.bytes.as_mut_ptr(), self.graph.id_len) };
        id
    }

    /// The bytes of its id, which are lent from the graph.
    #[must_use]
    #[inline]
    pub fn id_bytes(&self) -> &'g [u8] {
        let mut lent = sys::NOT_LENT;
        // SAFETY: `raw` is open, and stays so as long as the graph is borrowed; so many bytes lie there, and do not change.
        unsafe {
            sys::cg_lend_id(self.graph.raw, self.pos.0, &mut lent);
            std::slice::from_raw_parts(lent.bytes, lent.len)
        }
    }

    /// The bytes of the id of its root tree, which are lent from the graph.
    #[must_use]
    #[inline]
    pub fn root_tree_id_bytes(&self) -> &'g [u8] {
        let mut lent = sys::NOT_LENT;
        // SAFETY: as above.
        unsafe {
            sys::cg_lend_tree(self.graph.raw, self.pos.0, &mut lent);
            std::slice::from_raw_parts(lent.bytes, lent.len)
        }
    }

    /// What its record says, but for its ids and its parents, by one call.
    #[must_use]
    #[inline]
    pub fn record(&self) -> Record {
        let mut told = sys::Commit::default();
        // SAFETY: `raw` is open, and the pointer is that of a record.
        unsafe { sys::cg_commit_at(self.graph.raw, self.pos.0, &mut told) };
        Record { committer_timestamp: told.time, generation: told.generation }
    }

    /// The positions of its parents, the first parent first.
    ///
    /// # Errors
    ///
    /// They cannot be decoded, or not all of them, or there is no memory for them. Of a [`crate::Checked`] graph they can be.
    pub fn parents(&self) -> Result<Vec<Position>, ParentError> {
        if let Some(few) = self.known {
            return Ok(collected(few.positions[..few.count as usize].iter().copied())?);
        }
        let mut positions = room_for(Position(0), FEW)?;
        loop {
            let (room, len) = (positions.as_mut_ptr().cast(), positions.len());
            // SAFETY: `raw` is open, the pointer and the length are those of a vector, and a position is one number.
            let told = unsafe { sys::cg_parents(self.graph.raw, self.pos.0, room, len) };
            if told.count <= len as u64 {
                positions.truncate(told.count as usize);
                return ParentError::of(told.code).map_or(Ok(positions), Err);
            }
            positions = room_for(Position(0), told.count as usize)?;
        }
    }

    /// The position of its first parent, if it has one. No other parent is read.
    ///
    /// # Errors
    ///
    /// It cannot be decoded: `SecondWithoutFirst` or `FirstIsEdgeIndex`. Of a [`crate::Checked`] graph it can be.
    #[inline]
    pub fn parent1(&self) -> Result<Option<Position>, ParentError> {
        if let Some(few) = self.known {
            return Ok((few.count > 0).then_some(few.positions[0]));
        }
        // SAFETY: `raw` is open.
        let told = unsafe { sys::cg_first_parent(self.graph.raw, self.pos.0) };
        match (told.code, told.position) {
            (codes::OK, u32::MAX) => Ok(None),
            (codes::OK, position) => Ok(Some(Position(position))),
            (code, _) => Err(ParentError::of_fault(code)),
        }
    }

    /// The positions of its parents in order, and after them the error that ends their decoding, or that there is no memory for
    /// more, if there is one. No more are read ahead than are already given, or a few.
    #[must_use]
    #[inline]
    pub fn iter_parents(&self) -> Parents<'g> {
        let (graph, pos) = (self.graph, self.pos);
        match self.known {
            Some(few) => Parents { graph, pos, few, many: none(), read: few.count as usize, code: codes::OK },
            None => read_parents(graph, pos),
        }
    }

    /// Whether the bytes of a commit object are those of this commit's id, and say what the graph says of it.
    ///
    /// # Errors
    ///
    /// What differs first.
    pub fn matches(&self, contents: &[u8]) -> Result<(), Mismatch> {
        // SAFETY: `raw` is open, and the pointer and the length are those of a slice.
        let told = unsafe { sys::cg_matches(self.graph.raw, self.pos.0, contents.as_ptr(), contents.len()) };
        Mismatch::of(&told).map_or(Ok(()), Err)
    }

    /// Its generation number.
    #[must_use]
    #[inline]
    pub fn generation(&self) -> u32 {
        // SAFETY: `raw` is open.
        unsafe { sys::cg_generation_at(self.graph.raw, self.pos.0) }
    }

    /// When it was made: seconds since 1970-01-01 00:00:00 UTC.
    #[must_use]
    #[inline]
    pub fn committer_timestamp(&self) -> u64 {
        self.record().committer_timestamp
    }
}

/// The parents of the commit at a position, of which a few are read.
#[inline]
fn read_parents(graph: &Graph, pos: Position) -> Parents<'_> {
    let mut positions = [Position(0); FEW];
    let told = write_first_parents(graph, pos, &mut positions);
    let few = Few { positions, count: told.count as u32 };
    Parents { graph, pos, few, many: none(), read: told.count as usize, code: told.code }
}

/// No position, in no memory.
#[inline]
fn none() -> IntoIter<Position> {
    Vec::new().into_iter()
}

/// Writes the positions of the first parents of the commit at a position, as many as there is room for.
#[inline]
fn write_first_parents(graph: &Graph, pos: Position, out: &mut [Position]) -> sys::ParentCount {
    // SAFETY: `raw` is open, the pointer and the length are those of a slice, and a position is one number.
    unsafe { sys::cg_first_parents(graph.raw, pos.0, out.as_mut_ptr().cast(), out.len()) }
}

/// The positions of a commit's parents in order, and after them the error that ends their decoding, if there is one.
#[derive(Clone)]
pub struct Parents<'g> {
    graph: &'g Graph,
    pos: Position,
    /// Those that were read first and are left.
    few: Few,
    /// Those that were read later and are left, in the few commits that have so many.
    many: IntoIter<Position>,
    /// How many were read.
    read: usize,
    /// What comes after them: more, an error, or nothing.
    code: u32,
}

impl Parents<'_> {
    /// The next of those that were read later, or else what comes after them.
    #[cold]
    fn next_of_many(&mut self) -> Option<Result<Position, ParentError>> {
        if self.many.len() == 0 && self.code == codes::MORE_PARENTS {
            self.read_more();
        }
        match self.many.next() {
            Some(pos) => Some(Ok(pos)),
            None => ParentError::of(std::mem::replace(&mut self.code, codes::OK)).map(Err),
        }
    }

    /// Reads as many again as were read, if there is memory. The first ones are read anew, so that all take twice the steps.
    fn read_more(&mut self) {
        let Ok(mut positions) = room_for(Position(0), 2 * self.read) else {
            self.code = codes::OUT_OF_MEMORY;
            return;
        };
        let told = write_first_parents(self.graph, self.pos, &mut positions);
        positions.truncate(told.count as usize);
        self.many = positions.into_iter();
        // Those were given.
        self.many.by_ref().take(self.read).for_each(drop);
        self.read = told.count as usize;
        self.code = told.code;
    }
}

impl fmt::Debug for Parents<'_> {
    fn fmt(&self, f: &mut fmt::Formatter<'_>) -> fmt::Result {
        f.debug_list().entries(self.clone()).finish()
    }
}

impl Iterator for Parents<'_> {
    type Item = Result<Position, ParentError>;

    #[inline]
    fn next(&mut self) -> Option<Self::Item> {
        if self.few.count > 0 {
            let [first, second] = self.few.positions;
            self.few = Few { positions: [second, second], count: self.few.count - 1 };
            return Some(Ok(first));
        }
        if self.many.len() == 0 && self.code == codes::OK {
            return None;
        }
        self.next_of_many()
    }

    #[inline]
    fn size_hint(&self) -> (usize, Option<usize>) {
        let left = self.few.count as usize + self.many.len();
        let more = usize::from(self.code != codes::OK);
        (left + more, (self.code != codes::MORE_PARENTS).then_some(left + more))
    }
}

impl FusedIterator for Parents<'_> {}
