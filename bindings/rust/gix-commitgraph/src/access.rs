//! What a graph has.

use crate::file::Commit;
use crate::{Graph, Position};
use gix_hash::oid;

impl Graph {
    /// The commit at a position. Panics where the graph has no such position.
    #[must_use]
    #[inline]
    pub fn commit_at(&self, pos: Position) -> Commit<'_> {
        let (layer, at) = self.layers.place(pos);
        Commit::new(&self.layers.graph, layer, at)
    }

    /// The kind of hash of all ids.
    #[must_use]
    pub fn object_hash(&self) -> gix_hash::Kind {
        self.layers.kind
    }

    /// The commit with an id.
    #[must_use]
    pub fn commit_by_id(&self, id: impl AsRef<oid>) -> Option<Commit<'_>> {
        self.lookup(id).map(|pos| self.commit_at(pos))
    }

    /// The id at a position. Panics where the graph has no such position.
    #[must_use]
    pub fn id_at(&self, pos: Position) -> &oid {
        let (layer, at) = self.layers.place(pos);
        layer.id_at(at)
    }

    /// The commits, in the order of their positions.
    pub fn iter_commits(&self) -> impl Iterator<Item = Commit<'_>> {
        self.layers.commits()
    }

    /// The ids, in the order of their positions.
    pub fn iter_ids(&self) -> impl Iterator<Item = &oid> {
        self.layers.ids()
    }

    /// The position of an id.
    #[must_use]
    pub fn lookup(&self, id: impl AsRef<oid>) -> Option<Position> {
        self.layers.graph.lookup(id.as_ref().as_bytes())
    }

    /// The number of commits.
    #[must_use]
    pub fn num_commits(&self) -> u32 {
        self.layers.graph.num_commits()
    }
}
