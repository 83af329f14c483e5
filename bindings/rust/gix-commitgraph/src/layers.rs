//! The layers of a graph, with the bytes of their files.

use crate::file::Commit;
use crate::{file, Error, Position};
use commitgraph::{Bytes, LayerFile, Place};
use gix_hash::oid;
use std::collections::TryReserveError;
use std::mem::size_of;
use std::ops::Range;
use std::path::{Path, PathBuf};

/// Some layers, and the graph that they make.
pub(crate) struct Layers {
    pub(crate) graph: commitgraph::Graph,
    pub(crate) all: Vec<Layer>,
    /// The position of the first commit of each, side by side, since each lookup of a position reads some of them.
    starts: Vec<u32>,
    pub(crate) kind: gix_hash::Kind,
}

/// A layer: its file, and where in its bytes ids and records stand.
pub(crate) struct Layer {
    path: PathBuf,
    bytes: Bytes,
    first: u32,
    commits: u32,
    ids: usize,
    records: usize,
    base_ids: usize,
    edges: Range<usize>,
    id_len: usize,
}

/// The bytes of a record, besides its root tree: two words for parents, and then the generation number and the time ("Commit Data").
pub(crate) type Fields = [u8; 16];

/// Of at most so many layers the starts are counted.
const FEW: usize = 16;

impl Layers {
    /// The layers of a graph that was opened of these files, the lowest first. What the graph tells of one layer by its number takes a
    /// step for each layer below it, so that their sizes are read from the files.
    fn of(graph: commitgraph::Graph, files: Vec<LayerFile>) -> Result<Layers, Error> {
        let (number, id_len) = match graph.object_hash() {
            commitgraph::Kind::Sha1 => (1, 20),
            _ => (2, 32),
        };
        let kind = gix_hash::Kind::try_from(number).map_err(|_| Error::from("ids of SHA-256 need the feature `sha256`"))?;
        let mut first = 0;
        let mut next = |file| {
            let layer = Layer::of(file, first, id_len);
            first += layer.commits;
            layer
        };
        let all: Vec<_> = files.into_iter().map(&mut next).collect();
        debug_assert_eq!(first, graph.num_commits());
        let starts = all.iter().map(|layer| layer.first).collect();
        Ok(Layers { graph, all, starts, kind })
    }

    /// The layers of these files, the lowest first.
    pub(crate) fn of_files(files: Vec<LayerFile>) -> Result<Layers, Error> {
        Layers::of(commitgraph::Graph::of_files(files.clone())?, files)
    }

    /// What is opened at a path.
    pub(crate) fn open(path: &Path, place: Place) -> Result<Layers, Error> {
        let (graph, files) = commitgraph::Graph::open_with_files(path, place)?;
        Layers::of(graph, files)
    }

    /// The commits, in the order of their positions.
    pub(crate) fn commits(&self) -> impl Iterator<Item = Commit<'_>> {
        self.all.iter().flat_map(Layer::positions).map(|(layer, pos)| Commit::new(&self.graph, layer, pos))
    }

    /// The ids, in the order of their positions.
    pub(crate) fn ids(&self) -> impl Iterator<Item = &oid> {
        self.all.iter().flat_map(Layer::positions).map(|(layer, pos)| layer.id_at(pos))
    }

    /// How many layers begin at a position or before. A few are counted without a branch that depends on the position, which costs less
    /// than to search them by halves.
    #[inline]
    fn begun(&self, pos: Position) -> usize {
        if self.starts.len() <= FEW {
            return self.starts.iter().filter(|first| **first <= pos.0).count();
        }
        self.starts.partition_point(|first| *first <= pos.0)
    }

    /// The layer of a position, and the position there. Panics where it is none of the graph's.
    #[inline]
    pub(crate) fn place(&self, pos: Position) -> (&Layer, file::Position) {
        // The last layer that begins there or before has it: an empty one begins where the next one does.
        match self.all[..self.begun(pos)].last() {
            Some(layer) if pos.0 - layer.first < layer.commits => (layer, file::Position(pos.0 - layer.first)),
            _ => panic!("position {pos} of {} commits", self.graph.num_commits()),
        }
    }
}

impl Layer {
    /// The layer of a file that was opened, with the position of its first commit.
    fn of(file: LayerFile, first: u32, id_len: usize) -> Layer {
        let at = |id| chunk(&file.bytes, id).unwrap_or(0..0);
        let (fan, edges) = (at(b"OIDF"), at(b"EDGE"));
        let (ids, records, base_ids) = (at(b"OIDL").start, at(b"CDAT").start, at(b"BASE").start);
        // The last number of the fan counts all ids ("OID Fanout").
        let commits = word(&file.bytes, fan.end - 4);
        Layer { path: file.path, bytes: file.bytes, first, commits, ids, records, base_ids, edges, id_len }
    }

    pub(crate) fn into_file(self) -> LayerFile {
        LayerFile { path: self.path, bytes: self.bytes }
    }

    /// The positions of its commits, each with the layer.
    fn positions(&self) -> impl Iterator<Item = (&Layer, file::Position)> {
        (0..self.commits).map(move |pos| (self, file::Position(pos)))
    }

    pub(crate) fn path(&self) -> &Path {
        &self.path
    }

    /// The position in the graph of one in the layer. Panics where there is none.
    pub(crate) fn position(&self, pos: file::Position) -> Position {
        assert!(pos.0 < self.commits, "position {pos} of {} commits", self.commits);
        Position(self.first + pos.0)
    }

    /// The number of base layers that the header has ("HEADER", byte 7).
    pub(crate) fn base_count(&self) -> u8 {
        self.bytes[7]
    }

    /// The id at a position. Panics where there is none.
    pub(crate) fn id_at(&self, pos: file::Position) -> &oid {
        self.position(pos);
        self.id(self.ids + pos.0 as usize * self.id_len)
    }

    /// The id of the root tree of the commit at a position.
    pub(crate) fn tree_at(&self, pos: file::Position) -> &oid {
        self.id(self.record(pos))
    }

    /// The record of the commit at a position, but for the root tree.
    #[inline]
    pub(crate) fn fields_at(&self, pos: file::Position) -> &Fields {
        self.bytes[self.record(pos) + self.id_len..].first_chunk().expect("a record has them")
    }

    /// For each word of the extra edge list, how many words the list has that begins with it, by one pass from the end ("Extra Edge
    /// List"). Of a list that runs past the end, which no right file names, its words are counted.
    pub(crate) fn list_lengths(&self) -> Result<Vec<u32>, TryReserveError> {
        let words = self.bytes[self.edges.clone()].chunks_exact(4).rev();
        let mut lengths = Vec::new();
        lengths.try_reserve_exact(words.len())?;
        let mut length = 0;
        lengths.extend(words.map(|word| {
            let is_last = word[0] >= 0x80;
            length = if is_last { 1 } else { length + 1 };
            length
        }));
        lengths.reverse();
        Ok(lengths)
    }

    /// The ids of the layers below, as the file has them.
    pub(crate) fn base_ids(&self) -> impl ExactSizeIterator<Item = &oid> {
        (0..self.base_count()).map(|index| self.id(self.base_ids + usize::from(index) * self.id_len))
    }

    /// The checksum that the file ends with.
    pub(crate) fn checksum(&self) -> &oid {
        self.id(self.bytes.len() - self.id_len)
    }

    /// Where the record at a position begins.
    #[inline]
    fn record(&self, pos: file::Position) -> usize {
        self.records + pos.0 as usize * (self.id_len + size_of::<Fields>())
    }

    /// The id that begins at a byte of the file.
    fn id(&self, at: usize) -> &oid {
        oid::try_from_bytes(&self.bytes[at..at + self.id_len]).expect("an id of the graph's kind")
    }
}

/// Where a chunk lies, by the table of chunks of a file that was opened: it ends where the next one begins ("Chunk Lookup").
fn chunk(bytes: &[u8], id: &[u8; 4]) -> Option<Range<usize>> {
    let entry = |number: usize| bytes[8 + 12 * number..].first_chunk::<12>().expect("an entry of the table");
    let start = |number| u64::from_be_bytes(*entry(number).last_chunk().expect("eight bytes")) as usize;
    let found = (0..usize::from(bytes[6])).find(|&number| entry(number).starts_with(id))?;
    Some(start(found)..start(found + 1))
}

/// The word that begins at a byte of a file.
fn word(bytes: &[u8], at: usize) -> u32 {
    u32::from_be_bytes(bytes[at..at + 4].try_into().expect("four bytes"))
}
