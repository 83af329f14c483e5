//! What a file has.

use crate::file::{Commit, Position};
use crate::layers::Layer;
use crate::File;
use gix_hash::oid;
use std::fmt;
use std::path::Path;

impl File {
    /// The number of files that stand below it in its chain.
    #[must_use]
    pub fn base_graph_count(&self) -> u8 {
        self.layer().base_count()
    }

    /// The commit at a position. Panics where the file has no such position.
    #[must_use]
    #[inline]
    pub fn commit_at(&self, pos: Position) -> Commit<'_> {
        let layer = self.layer();
        layer.position(pos);
        Commit::new(&self.layers.graph, layer, pos)
    }

    /// The kind of hash of all ids.
    #[must_use]
    pub fn object_hash(&self) -> gix_hash::Kind {
        self.layers.kind
    }

    /// The id at a position. Panics where the file has no such position.
    #[must_use]
    pub fn id_at(&self, pos: Position) -> &oid {
        self.layer().id_at(pos)
    }

    /// The checksums of the files below it, as it has them, the lowest first.
    pub fn iter_base_graph_ids(&self) -> impl Iterator<Item = &oid> {
        self.layer().base_ids()
    }

    /// The commits, in the order of their positions.
    pub fn iter_commits(&self) -> impl Iterator<Item = Commit<'_>> {
        self.layers.commits()
    }

    /// The ids, in their order.
    pub fn iter_ids(&self) -> impl Iterator<Item = &oid> {
        self.layers.ids()
    }

    /// The position of an id.
    #[must_use]
    pub fn lookup(&self, id: impl AsRef<oid>) -> Option<Position> {
        self.layers.graph.lookup(id.as_ref().as_bytes()).map(|pos| Position(pos.0))
    }

    /// The number of commits.
    #[must_use]
    pub fn num_commits(&self) -> u32 {
        self.layers.graph.num_commits()
    }

    /// The path of the file.
    #[must_use]
    pub fn path(&self) -> &Path {
        self.layer().path()
    }

    #[inline]
    pub(crate) fn layer(&self) -> &Layer {
        &self.layers.all[0]
    }
}

impl fmt::Debug for File {
    fn fmt(&self, f: &mut fmt::Formatter<'_>) -> fmt::Result {
        write!(f, "File(\"{:?}\")", self.path().display())
    }
}
