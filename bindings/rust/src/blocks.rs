//! What is said of many commits, read by one call for many of them.

use crate::commit::FEW;
use crate::room::{collected, reserved};
use crate::{codes, sys, Graph, ParentError, Position};
use std::collections::TryReserveError;
use std::iter::FusedIterator;

/// Of so many commits one call tells.
const BLOCK: usize = 1024;

/// What the record of a commit says, but for its ids and its parents.
#[derive(Clone, Copy, Debug, PartialEq, Eq)]
pub struct Record {
    /// When it was made: seconds since 1970-01-01 00:00:00 UTC.
    pub committer_timestamp: u64,
    /// Its generation number.
    pub generation: u32,
}

/// The parents of some commits that follow one another.
pub struct ParentBlock {
    first: Position,
    pub(crate) answers: Vec<sys::ParentCount>,
    /// Those of all, and as many more as a commit with few has, so that these may be read together.
    pub(crate) parents: Vec<Position>,
}

/// What is told of the one commit of a block for which there is no memory.
const REFUSED: &[sys::ParentCount] = &[sys::ParentCount { code: codes::OUT_OF_MEMORY, count: 0 }];

impl ParentBlock {
    /// Of no commits.
    #[inline]
    pub(crate) fn empty() -> ParentBlock {
        ParentBlock { first: Position(0), answers: Vec::new(), parents: Vec::new() }
    }

    /// The position of the first of these commits.
    #[must_use]
    pub fn first(&self) -> Position {
        self.first
    }

    /// What is told of each commit.
    fn told(&self) -> &[sys::ParentCount] {
        if self.answers.is_empty() { REFUSED } else { &self.answers }
    }

    /// How many commits these are, at least one.
    #[must_use]
    #[allow(clippy::len_without_is_empty)]
    pub fn len(&self) -> usize {
        self.told().len()
    }

    /// The parents of each commit, in the order of the commits; or why they cannot be decoded, or not all of them. Where there is
    /// no memory for a block, it is one commit, of which that is told.
    #[must_use]
    #[inline]
    pub fn iter(&self) -> impl ExactSizeIterator<Item = Result<&[Position], ParentError>> + FusedIterator {
        let mut rest = &self.parents[..];
        self.told().iter().map(move |answer| {
            let count = answer.count as usize;
            // SAFETY: the parents of all these commits stand there, one commit's behind another's.
            let parents = unsafe { rest.get_unchecked(..count) };
            // SAFETY: as above.
            rest = unsafe { rest.get_unchecked(count..) };
            match answer.code {
                codes::OK => Ok(parents),
                code => Err(ParentError::of_fault(code)),
            }
        })
    }

    /// The same, in vectors.
    fn into_vectors(self) -> impl FusedIterator<Item = Result<Vec<Position>, ParentError>> {
        let mut used = 0;
        (0..self.len()).map(move |place| {
            let answer = self.told()[place];
            let parents = &self.parents[used..][..answer.count as usize];
            used += parents.len();
            match ParentError::of(answer.code) {
                None => Ok(collected(parents.iter().copied())?),
                Some(error) => Err(error),
            }
        })
    }
}

impl Graph {
    /// What the records of the commits say, in the order of their positions.
    #[must_use]
    pub fn iter_records(&self) -> impl FusedIterator<Item = Record> + '_ {
        (0..self.num_commits()).step_by(BLOCK).fuse().flat_map(|first| self.records_from(first))
    }

    /// The records of some commits from a position on.
    fn records_from(&self, first: u32) -> impl FusedIterator<Item = Record> {
        let mut records = [sys::Commit::default(); BLOCK];
        // SAFETY: `raw` is open, and the pointer and the length are those of a vector.
        let left = unsafe { sys::cg_commits(self.raw, first, records.as_mut_ptr(), records.len()) };
        let record = |told: sys::Commit| Record { committer_timestamp: told.time, generation: told.generation };
        records.into_iter().take(left as usize).map(record)
    }

    /// The parents of each commit, in the order of their positions, as [`crate::Commit::parents`] has them.
    #[must_use]
    pub fn iter_parents(&self) -> impl FusedIterator<Item = Result<Vec<Position>, ParentError>> + '_ {
        self.parent_blocks().flat_map(ParentBlock::into_vectors)
    }

    /// The parents of all commits, in blocks: the fastest way to go over them, since nothing is allocated for each commit.
    #[must_use]
    pub fn parent_blocks(&self) -> impl FusedIterator<Item = ParentBlock> + '_ {
        let mut next = Position(0);
        std::iter::from_fn(move || {
            let block = self.parents_from(next)?;
            next = Position(next.0 + block.len() as u32);
            Some(block)
        })
        .fuse()
    }

    /// The parents of some commits from a position on, in the room of a block; and where they end since those of the next commit do
    /// not fit, the room that all of them take.
    pub(crate) fn parents_within(&self, first: Position) -> Result<(ParentBlock, Option<usize>), TryReserveError> {
        let (mut block, length) = self.block_in(first, BLOCK, 2 * BLOCK)?;
        let wanted = (length > 2 * BLOCK).then_some(length);
        block.answers.truncate(block.answers.len() - usize::from(wanted.is_some()));
        Ok((block, wanted))
    }

    /// The parents of some commits from a position on, or `None` where no commit is left.
    fn parents_from(&self, first: Position) -> Option<ParentBlock> {
        let refused = ParentBlock { first, answers: Vec::new(), parents: Vec::new() };
        (first.0 < self.num_commits()).then(|| self.whole_from(first).unwrap_or(refused))
    }

    /// The same where a commit is left: its own parents find room, if there is memory.
    fn whole_from(&self, first: Position) -> Result<ParentBlock, TryReserveError> {
        let (mut block, wanted) = self.parents_within(first)?;
        if let (true, Some(length)) = (block.answers.is_empty(), wanted) {
            (block, _) = self.block_in(first, 1, length)?;
        }
        Ok(block)
    }

    /// The parents of some commits from a position on, for at most so many of which there is room, and so many parents; and how many
    /// parents these have.
    fn block_in(&self, first: Position, commits: usize, room: usize) -> Result<(ParentBlock, usize), TryReserveError> {
        let mut answers: Vec<sys::ParentCount> = reserved(commits)?;
        let mut parents: Vec<Position> = reserved(room + FEW)?;
        let (told, out) = (answers.as_mut_ptr(), parents.as_mut_ptr());
        // SAFETY: `raw` is open, each pointer has room for as many items, which need hold nothing, and a position is one number.
        let block = unsafe { sys::cg_parents_from(self.raw, first.0, told, commits, out.cast(), room) };
        let length = block.length as usize;
        // SAFETY: so many answers and so many positions were written.
        unsafe {
            answers.set_len(block.commits as usize);
            parents.set_len(length.min(room));
        }
        parents.extend([Position(0); FEW]);
        Ok((ParentBlock { first, answers, parents }, length))
    }
}
