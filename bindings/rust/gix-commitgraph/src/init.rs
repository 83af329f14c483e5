//! Opening a graph.

use crate::layers::Layers;
use crate::{Error, File, Graph};
use commitgraph::Place;
use std::path::Path;

impl Graph {
    /// Opens the graph at a path: that of a file, of a folder with a chain, or of an info folder. Its files are read.
    ///
    /// # Errors
    ///
    /// A file cannot be read, its bytes are no layer, the layers make no graph, or memory ran out.
    pub fn at(path: &Path) -> Result<Graph, Error> {
        Graph::open(path, Place::Anything)
    }

    /// Opens the graph of a folder with a file `commit-graph-chain`.
    ///
    /// # Errors
    ///
    /// As of [`Graph::at`].
    pub fn from_commit_graphs_dir(path: &Path) -> Result<Graph, Error> {
        Graph::open(path, Place::ChainFolder)
    }

    /// Opens the graph of one file.
    ///
    /// # Errors
    ///
    /// As of [`Graph::at`].
    pub fn from_file(path: &Path) -> Result<Graph, Error> {
        Graph::open(path, Place::File)
    }

    /// Opens the graph of an info folder, in most repositories `.git/objects/info`: its file `commit-graph`, or where that is
    /// not there or is refused, the chain in its folder `commit-graphs`.
    ///
    /// # Errors
    ///
    /// As of [`Graph::at`].
    pub fn from_info_dir(info_dir: &Path) -> Result<Graph, Error> {
        Graph::open(info_dir, Place::InfoFolder)
    }

    /// The graph of these files, the lowest layer first. None of their bytes is copied.
    ///
    /// # Errors
    ///
    /// The layers make no graph, or memory ran out.
    pub fn new(files: Vec<File>) -> Result<Graph, Error> {
        let files = match <[File; 1]>::try_from(files) {
            // Its graph is at hand.
            Ok([file]) => return Ok(Graph { layers: file.layers }),
            Err(files) => files,
        };
        let files = files.into_iter().flat_map(|file| file.layers.all).map(|layer| layer.into_file()).collect();
        Ok(Graph { layers: Layers::of_files(files)? })
    }

    fn open(path: &Path, place: Place) -> Result<Graph, Error> {
        Ok(Graph { layers: Layers::open(path, place)? })
    }
}

impl TryFrom<&Path> for Graph {
    type Error = Error;

    fn try_from(path: &Path) -> Result<Graph, Error> {
        Graph::at(path)
    }
}
