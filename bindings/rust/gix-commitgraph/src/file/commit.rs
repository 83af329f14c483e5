//! A commit of a file, and its parents.

use crate::layers::{Fields, Layer};
use crate::{file, Error, Position};
use gix_hash::oid;
use std::fmt;
use std::iter::FusedIterator;

/// A commit of a file, alone or in a graph.
#[derive(Clone, Copy)]
pub struct Commit<'a> {
    graph: &'a commitgraph::Graph,
    layer: &'a Layer,
    fields: &'a Fields,
    pos: file::Position,
}

/// The word of a record that stands for no parent ("Commit Data").
const NO_PARENT: u32 = 0x7000_0000;

/// What is set in the word of a second parent that is an index into the extra edge list.
const EDGE_INDEX: u32 = 1 << 31;

/// A record's generation number stands above so many bits, which are its time.
const TIME_BITS: u32 = 34;

impl<'a> Commit<'a> {
    /// The commit at a position of a layer of the graph.
    #[inline]
    pub(crate) fn new(graph: &'a commitgraph::Graph, layer: &'a Layer, pos: file::Position) -> Commit<'a> {
        Commit { graph, layer, fields: layer.fields_at(pos), pos }
    }

    /// When it was made: seconds since 1970-01-01 00:00:00 UTC.
    #[must_use]
    #[inline]
    pub fn committer_timestamp(&self) -> u64 {
        self.numbers() % (1 << TIME_BITS)
    }

    /// Its generation number: 1 of a commit without parents.
    #[must_use]
    #[inline]
    pub fn generation(&self) -> u32 {
        (self.numbers() >> TIME_BITS) as u32
    }

    /// The generation number, and the time below it.
    #[inline]
    fn numbers(&self) -> u64 {
        u64::from_be_bytes(*self.fields.last_chunk().expect("the last eight bytes"))
    }

    /// The two words that tell of parents.
    #[inline]
    fn words(&self) -> [u32; 2] {
        let both = u64::from_be_bytes(*self.fields.first_chunk().expect("the first eight bytes"));
        [(both >> 32) as u32, both as u32]
    }

    /// How many parents the words say that stand in them both; or `None` where others stand elsewhere, or the words are wrong: that
    /// the library tells.
    #[inline]
    fn count(&self) -> Option<usize> {
        match self.words() {
            [NO_PARENT, NO_PARENT] => Some(0),
            [first, NO_PARENT] if first < NO_PARENT => Some(1),
            [first, second] if first < NO_PARENT && second < NO_PARENT => Some(2),
            _ => None,
        }
    }

    /// The same commit, of which the library tells.
    #[cold]
    fn told(&self) -> commitgraph::Commit<'a> {
        self.graph.commit_at(self.layer.position(self.pos))
    }

    /// How many parents a commit has that the check has passed. Those of the list of extra edges are counted by these lengths, which
    /// are those of [`Layer::list_lengths`].
    pub(crate) fn parent_count(&self, lengths: &[u32]) -> u32 {
        let [first, second] = self.words();
        match lengths.get(second.wrapping_sub(EDGE_INDEX) as usize) {
            Some(length) if second >= EDGE_INDEX => 1 + length,
            _ => u32::from(first != NO_PARENT) + u32::from(second != NO_PARENT),
        }
    }

    /// The positions of its parents in the graph, the first parent first, and after them the error that ends their decoding, if
    /// there is one.
    #[must_use]
    #[inline]
    pub fn iter_parents(self) -> Parents<'a> {
        match self.count() {
            Some(left) => Parents { words: self.words(), left, told: None },
            None => Parents { words: [0; 2], left: 0, told: Some(self.told().iter_parents()) },
        }
    }

    /// Its id.
    #[must_use]
    #[inline]
    pub fn id(&self) -> &'a oid {
        self.layer.id_at(self.pos)
    }

    /// The position of its first parent in the graph, if it has one.
    ///
    /// # Errors
    ///
    /// It cannot be decoded.
    #[inline]
    pub fn parent1(&self) -> Result<Option<Position>, Error> {
        match self.count() {
            Some(count) => Ok((count > 0).then_some(Position(self.words()[0]))),
            None => Ok(self.told().parent1()?),
        }
    }

    /// Its position in the file.
    #[must_use]
    #[inline]
    pub fn position(&self) -> file::Position {
        self.pos
    }

    /// The id of its root tree, which outlives the commit.
    #[must_use]
    #[inline]
    pub fn root_tree_id(&self) -> &'a oid {
        self.layer.tree_at(self.pos)
    }
}

/// What a word of a record tells of a parent ("Commit Data").
#[derive(Debug)]
#[allow(dead_code)]
enum ParentEdge {
    None,
    GraphPosition(Position),
    ExtraEdgeIndex(u32),
}

impl ParentEdge {
    fn of(word: u32) -> ParentEdge {
        match word {
            NO_PARENT => ParentEdge::None,
            EDGE_INDEX.. => ParentEdge::ExtraEdgeIndex(word - EDGE_INDEX),
            _ => ParentEdge::GraphPosition(Position(word)),
        }
    }
}

impl fmt::Debug for Commit<'_> {
    fn fmt(&self, f: &mut fmt::Formatter<'_>) -> fmt::Result {
        let (id, tree, generation) = (self.id(), self.root_tree_id(), self.generation());
        let [first, second] = self.words().map(ParentEdge::of);
        write!(f, "Commit {{ id: {id}, lex_pos: {}, generation: {generation}, root_tree_id: {tree}, ", self.pos)?;
        write!(f, "parent1: {first:?}, parent2: {second:?} }}")
    }
}

impl Eq for Commit<'_> {}

/// Two are equal that stand at one position of one file, by its address.
impl PartialEq for Commit<'_> {
    fn eq(&self, other: &Self) -> bool {
        std::ptr::eq(self.layer, other.layer) && self.pos == other.pos
    }
}

/// The positions of a commit's parents in the graph.
#[derive(Clone)]
pub struct Parents<'a> {
    /// Those that stand in the record, of which so many are left.
    words: [u32; 2],
    left: usize,
    /// Else all, as the library tells them.
    told: Option<commitgraph::Parents<'a>>,
}

impl Parents<'_> {
    /// The next one that the library tells.
    #[cold]
    fn next_told(&mut self) -> Option<Result<Position, Error>> {
        self.told.as_mut()?.next().map(|parent| Ok(parent?))
    }
}

impl Iterator for Parents<'_> {
    type Item = Result<Position, Error>;

    #[inline]
    fn next(&mut self) -> Option<Self::Item> {
        if self.left > 0 {
            let [first, second] = self.words;
            self.words = [second, second];
            self.left -= 1;
            return Some(Ok(Position(first)));
        }
        if self.told.is_some() { self.next_told() } else { None }
    }

    #[inline]
    fn size_hint(&self) -> (usize, Option<usize>) {
        self.told.as_ref().map_or((self.left, Some(self.left)), Iterator::size_hint)
    }
}

impl FusedIterator for Parents<'_> {}
