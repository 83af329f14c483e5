//! The commits of a graph, one after another.

use crate::blocks::ParentBlock;
use crate::commit::{Few, FEW};
use crate::sys::ParentCount;
use crate::{codes, Commit, Graph, Position};
use std::iter::FusedIterator;

/// An iterator over the commits of a graph, in order. It reads the parents of many by one call.
pub(crate) struct Commits<'g> {
    graph: &'g Graph,
    next: u32,
    end: u32,
    /// The parents of the next commits; how many of these were given, and how many parents those have.
    block: ParentBlock,
    given: usize,
    used: usize,
    /// Of so many commits the parents are not read ahead, and of so many after the next long list.
    alone: u32,
    stretch: u32,
}

/// How many commits come after a first long list before parents are read ahead again.
const STRETCH: u32 = 256;

impl<'g> Commits<'g> {
    #[inline]
    pub(crate) fn new(graph: &'g Graph) -> Commits<'g> {
        Commits { graph, next: 0, end: graph.num_commits(), block: ParentBlock::empty(), given: 0, used: 0, alone: 0, stretch: STRETCH }
    }

    /// All parents of the next commit, where they were read, are few and no fault comes after them.
    #[inline]
    fn few(&mut self) -> Option<Few> {
        let ParentCount { code, count } = *self.block.answers.get(self.given)?;
        let positions = self.block.parents[self.used..].first_chunk();
        self.given += 1;
        self.used += count as usize;
        let positions = *positions.filter(|_| code == codes::OK && count <= FEW as u64)?;
        Some(Few { positions, count: count as u32 })
    }

    /// Reads the parents of the next commits. A commit with a long list ends that, since counting the list takes long: then no
    /// parents are read of the commits after it, and of twice as many each time. So it is where there is no memory for them.
    #[cold]
    fn read_ahead(&mut self) {
        let read = self.graph.parents_within(Position(self.next));
        let (block, wanted) = read.unwrap_or_else(|_| (ParentBlock::empty(), Some(0)));
        self.block = block;
        (self.given, self.used) = (0, 0);
        if wanted.is_some() {
            self.alone = self.stretch;
            self.stretch = self.stretch.saturating_mul(2);
        }
    }
}

impl<'g> Iterator for Commits<'g> {
    type Item = Commit<'g>;

    #[inline]
    fn next(&mut self) -> Option<Commit<'g>> {
        let pos = Position(self.next);
        if self.next == self.end {
            return None;
        }
        if self.given == self.block.answers.len() {
            if self.alone > 0 {
                self.alone -= 1;
                self.next += 1;
                return Some(Commit::new(self.graph, pos, None));
            }
            self.read_ahead();
        }
        let few = self.few();
        self.next += 1;
        Some(Commit::new(self.graph, pos, few))
    }

    #[inline]
    fn size_hint(&self) -> (usize, Option<usize>) {
        let left = (self.end - self.next) as usize;
        (left, Some(left))
    }
}

impl ExactSizeIterator for Commits<'_> {}

impl FusedIterator for Commits<'_> {}
