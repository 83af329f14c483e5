//! Of which file and which commit the fault of a graph speaks.

use crate::{Bytes, CheckError, Fault, Graph, LayerFile, VerifyOptions};
use std::path::PathBuf;

impl Graph {
    /// What a fault of this graph is about: the file and the commit. The fault is one that [`Graph::verify_integrity`] answers.
    #[must_use]
    pub fn check_error(&self, fault: Fault) -> CheckError {
        let pos = fault.pos().filter(|pos| pos.0 < self.num_commits());
        let layer = fault.layer().or_else(|| pos.and_then(|pos| self.layers().position(|layer| layer.has(pos))));
        CheckError { path: path_of(&self.paths, fault, layer), id: pos.map(|pos| self.id_at(pos)), fault }
    }
}

/// The path of the file of a layer, or of the chain file, or none.
fn path_of(paths: &[PathBuf], fault: Fault, layer: Option<usize>) -> PathBuf {
    match fault {
        Fault::TooManyFiles => paths.first().filter(|path| **path != PathBuf::new()).map(|path| path.with_file_name("commit-graph-chain")),
        _ => layer.and_then(|layer| paths.get(layer).cloned()),
    }
    .unwrap_or_default()
}

/// What a fault is about, of layers whose bytes are at hand: of a commit the graph of the same bytes tells, which is not checked.
pub(crate) fn of_layers(layers: &[(&[u8], &str)], fault: Fault) -> CheckError {
    match Graph::of_lent(layers) {
        Ok(graph) => graph.check_error(fault),
        Err(_) => without_commit(&crate::paths_of(layers), fault),
    }
}

/// The same of a graph that is closed: of a commit the bytes tell that it has kept. Where it has none, its files do, which are read
/// again, if they still have the fault.
pub(crate) fn of_files(paths: &[PathBuf], bytes: &[Bytes], options: VerifyOptions, fault: Fault) -> CheckError {
    let kept = bytes.len() == paths.len();
    let again = match fault.pos() {
        Some(_) if kept => opened_again(paths, bytes.iter().cloned()),
        Some(_) => read_again(paths).filter(|graph| graph.has_fault(options, fault)),
        None => None,
    };
    again.map_or_else(|| without_commit(paths, fault), |graph| graph.check_error(fault))
}

fn without_commit(paths: &[PathBuf], fault: Fault) -> CheckError {
    let only = fault.pos().filter(|_| paths.len() == 1).map(|_| 0);
    CheckError { path: path_of(paths, fault, fault.layer().or(only)), id: None, fault }
}

fn read_again(paths: &[PathBuf]) -> Option<Graph> {
    let read: Vec<_> = paths.iter().map(std::fs::read).collect::<Result<_, _>>().ok()?;
    opened_again(paths, read.into_iter().map(Bytes::from))
}

fn opened_again(paths: &[PathBuf], bytes: impl Iterator<Item = Bytes>) -> Option<Graph> {
    let files = paths.iter().zip(bytes).map(|(path, bytes)| LayerFile { path: path.clone(), bytes });
    Graph::of_files(files.collect()).ok()
}
