//! The layers of a graph.

use crate::error::fault_of;
use crate::{codes, sys, Graph, ObjectId, Position, VerifyError};
use std::convert::Infallible;
use std::iter::FusedIterator;

/// A kind of hash.
#[derive(Clone, Copy, Debug, PartialEq, Eq, Hash)]
#[non_exhaustive]
pub enum Kind {
    /// SHA-1, whose ids have 20 bytes.
    Sha1,
    /// SHA-256, whose ids have 32 bytes.
    Sha256,
}

/// A layer of a graph: what one of its files says.
#[derive(Clone, Copy)]
pub struct Layer<'g> {
    graph: &'g Graph,
    number: u64,
    told: sys::Layer,
}

/// The statistics of a layer.
#[derive(Clone, Copy, Debug, PartialEq, Eq)]
#[non_exhaustive]
pub struct LayerOutcome {
    /// The number of its commits.
    pub num_commits: u32,
    /// The least generation number, 0 where there is no commit.
    pub min_generation: u32,
    /// The greatest generation number, 0 where there is no commit.
    pub max_generation: u32,
    /// The greatest number of parents of a commit.
    pub max_parents: u32,
}

impl std::fmt::Debug for Layer<'_> {
    fn fmt(&self, f: &mut std::fmt::Formatter<'_>) -> std::fmt::Result {
        f.debug_struct("Layer").field("number", &self.number).field("checksum", &self.checksum()).finish_non_exhaustive()
    }
}

impl<'g> Layer<'g> {
    /// The position of its first commit, and of the first commit above it where it has none.
    #[must_use]
    pub fn first(&self) -> Position {
        Position(self.told.first)
    }

    /// The number of its commits.
    #[must_use]
    pub fn num_commits(&self) -> u32 {
        self.told.num_commits
    }

    /// Whether a position is one of its commits.
    pub(crate) fn has(&self, pos: Position) -> bool {
        pos >= self.first() && pos.0 - self.told.first < self.told.num_commits
    }

    /// The checksum that its file ends with. Whether it is that of the bytes, a check says.
    #[must_use]
    pub fn checksum(&self) -> ObjectId {
        self.graph.id_from(|out, len| {
            // SAFETY: `raw` is open, and the pointer and the length are those of an array.
            unsafe { sys::cg_layer_checksum(self.graph.raw, self.number, out, len) }
        })
    }

    /// Checks the layer alone: its checksum, its file's name, its fan, its ids and trees, and that its parents can be decoded. What
    /// it says of the layers below it is not looked at, and neither are generation numbers.
    ///
    /// # Errors
    ///
    /// The first fault, or `OutOfMemory`.
    pub fn verify(&self) -> Result<LayerOutcome, VerifyError<Infallible>> {
        let mut told = sys::LayerVerdict::default();
        // SAFETY: `raw` is open, and the pointer is that of a value.
        let code = unsafe { sys::cg_verify_layer(self.graph.raw, self.number, &mut told) };
        let position = self.told.first + told.position;
        let verdict = sys::Verdict { code, position, other: told.byte, layer: self.number, ..sys::Verdict::default() };
        match code {
            codes::OK => Ok(LayerOutcome {
                num_commits: told.num_commits,
                min_generation: told.min_generation,
                max_generation: told.max_generation,
                max_parents: told.max_parents,
            }),
            codes::OUT_OF_MEMORY => Err(VerifyError::OutOfMemory),
            _ => Err(VerifyError::Fault(fault_of(&verdict))),
        }
    }

    /// The checksums of the layers below it, as its file has them. Whether they are right, a check says.
    #[must_use]
    pub fn base_ids(&self) -> impl ExactSizeIterator<Item = ObjectId> + FusedIterator + 'g {
        let Layer { graph, number, told } = *self;
        (0..told.bases).map(move |index| {
            graph.id_from(|out, len| {
                // SAFETY: as above.
                unsafe { sys::cg_base_id_at(graph.raw, number, u64::from(index), out, len) }
            })
        })
    }
}

impl Graph {
    /// The kind of hash of all ids.
    #[must_use]
    pub fn object_hash(&self) -> Kind {
        match self.id_len {
            20 => Kind::Sha1,
            _ => Kind::Sha256,
        }
    }

    /// The number of layers.
    #[must_use]
    #[inline]
    pub fn num_layers(&self) -> usize {
        // SAFETY: `raw` is open.
        unsafe { sys::cg_num_layers(self.raw) as usize }
    }

    /// A layer, counted from the lowest, if there is one of this number.
    #[must_use]
    pub fn layer(&self, number: usize) -> Option<Layer<'_>> {
        let mut told = sys::Layer::default();
        let number = number as u64;
        // SAFETY: `raw` is open, and the pointer is that of a value.
        let found = unsafe { sys::cg_layer(self.raw, number, &mut told) };
        found.then_some(Layer { graph: self, number, told })
    }

    /// The layers, the lowest first.
    #[must_use]
    pub fn layers(&self) -> impl FusedIterator<Item = Layer<'_>> {
        (0..self.num_layers()).filter_map(|number| self.layer(number))
    }

    /// The id that a call writes, which is there.
    fn id_from(&self, write: impl FnOnce(*mut u8, usize) -> usize) -> ObjectId {
        let mut id = ObjectId { bytes: [0; 32], len: self.id_len as u8 };
        write(id.bytes.as_mut_ptr(), self.id_len);
        id
    }
}
