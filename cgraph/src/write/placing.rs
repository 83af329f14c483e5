//! Lets what was written take its place.

use std::fs::{self, File};
use std::io::{self, Write};
use std::path::Path;

use super::{Writer, CHAIN_FILE, NEW};
use crate::graph::{is_layer_name, layer_name, lines_of, Graph, Kind};
use crate::locks::lock_of;
use crate::paths::same_file;
use crate::system::{may, Right};
use crate::target::{refuse_making, Halt};
use crate::text::{quoted, shown};

impl Writer<'_> {
    /// Lets the file take its place. From then on it is the one that counts: a chain beside it goes
    /// away.
    pub(super) fn exchange_file(&mut self) -> Result<(), Halt> {
        let mut made = self.question.session.guard.moment();
        let (from, to) = (&self.single.path, &self.target.single);
        let placed = self.target.shared.give(from).and_then(|()| fs::rename(from, to));
        placed.map_err(|why| refuse_placing(to, &why))?;
        made.forget_file(from);
        sync_folder(to);
        if self.chain.is_some() {
            let _ = fs::remove_file(&self.target.chain);
            self.remove_layers();
        }
        Ok(())
    }

    /// Lets the chain take its place, once its new layer has its name. A file that was a
    /// commit-graph by itself becomes a layer too if it stays; it counts until it goes away at
    /// last.
    pub(super) fn exchange_chain(&mut self, graph: &Graph, checksum: &str) -> Result<(), Halt> {
        let mut made = self.question.session.guard.moment();
        let (from, to) = (lock_of(&self.target.chain), &self.target.chain);
        let placed = self.put_layers(graph, checksum).and_then(|()| fs::rename(&from, to));
        placed.map_err(|why| refuse_placing(to, &why))?;
        made.forget_file(&from);
        sync_folder(to);
        let _ = fs::remove_file(&self.target.single);
        self.remove_layers();
        Ok(())
    }

    /// Gives the layers their names, and the chain its lines, and has all of that on the disk.
    fn put_layers(&self, graph: &Graph, checksum: &str) -> io::Result<()> {
        if let (Kind::File, 1, Some(lowest)) = (graph.kind, self.kept, self.layers.first()) {
            self.put_layer(&self.target.single, &lowest.checksum)?;
        }
        self.target.shared.give(&self.single.path)?;
        self.put_layer(&self.single.path, checksum)?;
        let mut chain = &self.chain.as_ref().ok_or(io::ErrorKind::NotFound)?.file;
        chain.write_all(&fs::read(self.scratch.join(NEW).join(CHAIN_FILE))?)?;
        self.target.shared.give(&lock_of(&self.target.chain))?;
        chain.sync_all()?;
        sync_folder(&self.target.chain);
        Ok(())
    }

    /// Gives a file the name of a layer too, or its copy where it can have no second name.
    fn put_layer(&self, file: &Path, checksum: &str) -> io::Result<()> {
        let layer = self.target.chains().join(layer_name(checksum.as_bytes()));
        if same_file(file, &layer) {
            return Ok(());
        }
        if fs::hard_link(file, &layer).is_ok() {
            return Ok(());
        }
        let aside = self.target.chains().join("tmp_graph_copy");
        let _ = fs::remove_file(&aside);
        if fs::hard_link(file, &aside).is_err() {
            fs::copy(file, &aside)?;
            File::open(&aside)?.sync_all()?;
        }
        fs::rename(&aside, &layer)
    }

    /// Removes the layers that the chain does not name.
    fn remove_layers(&self) {
        let names = lines_of(&fs::read(&self.target.chain).unwrap_or_default());
        let named: Vec<_> = names.iter().map(|line| layer_name(line)).collect();
        for entry in fs::read_dir(self.target.chains()).into_iter().flatten().flatten() {
            let name = entry.file_name();
            if is_layer_name(name.as_encoded_bytes()) && !named.contains(&name) {
                let _ = fs::remove_file(entry.path());
            }
        }
    }

    /// Removes the locks that are held.
    pub(super) fn give_locks_back(&mut self) {
        let guard = &self.question.session.guard;
        self.single.give_back(guard);
        if let Some(chain) = self.chain.take() {
            chain.give_back(guard);
        }
    }
}

/// Has the folder of a file on the disk.
fn sync_folder(path: &Path) {
    let _ = path.parent().map(|folder| File::open(folder).and_then(|folder| folder.sync_all()));
}

/// A file could not take its place: the folder may not be written any more, or else what was said
/// of it is told.
fn refuse_placing(path: &Path, why: &io::Error) -> Halt {
    let folder = path.parent().unwrap_or(Path::new("/"));
    if folder.is_dir() && !may(folder, Right::Write) {
        return refuse_making(path);
    }
    let why = why.to_string();
    let why = why.split(" (os error ").next().unwrap_or_default();
    Halt::unwritten(
        format!("'{}' could not take its place: {why}", shown(path)),
        "see whether its disk is full, and who may write there, and ask again",
        vec![format!("df {}", quoted(folder)), format!("ls -ld {}", quoted(folder))],
    )
}
