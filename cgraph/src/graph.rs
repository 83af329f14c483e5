//! Where the commit-graph is: in which of the object folders, and in which files.

use std::ffi::OsString;
use std::fs::{self, File};
use std::io::Read;
use std::os::unix::ffi::{OsStrExt, OsStringExt};
use std::os::unix::fs::{symlink, MetadataExt};
use std::path::{Path, PathBuf};

use crate::alternates;
use crate::error::Error;
use crate::paths::is_there;
use crate::repository::{contains, Hash, Repository};
use crate::scratch::Scratch;
use crate::session::Session;
use crate::system::{may, Right};

/// The form of a commit-graph.
#[derive(Clone, Copy, Debug, PartialEq, Eq)]
pub enum Kind {
    File,
    Chain,
    None,
}

/// The object folders in which Git looks for a commit-graph, in its order.
#[derive(Clone, Debug)]
pub struct Places {
    pub folders: Vec<PathBuf>,
    /// Whether the first was named, so that it alone counts. Layers may stand in the others.
    pub is_named: bool,
}

impl Places {
    /// The folder that is named, or that of the repository, and then those of which it borrows
    /// objects.
    pub fn find(session: &Session, repository: &Repository, named: Option<&Path>) -> Self {
        let objects = &repository.objects;
        let mut folders = vec![named.unwrap_or(objects).to_owned()];
        if alternates::may_be(objects) {
            if named.is_some() {
                folders.push(objects.clone());
            }
            folders.extend(alternates::all(session));
        }
        Places { folders, is_named: named.is_some() }
    }

    /// The folders in which a commit-graph counts.
    pub fn searched(&self) -> &[PathBuf] {
        if self.is_named {
            &self.folders[..1]
        } else {
            &self.folders
        }
    }

    /// The first of them that has a commit-graph, or else the first of all.
    pub fn graph(&self) -> Graph {
        for home in self.searched() {
            let folder = home.join("info");
            let kind = if is_there(&folder.join("commit-graph")) {
                Kind::File
            } else if is_there(&folder.join("commit-graphs/commit-graph-chain")) {
                Kind::Chain
            } else {
                continue;
            };
            return Graph { kind, home: home.clone(), folder, places: self.clone() };
        }
        let home = self.folders[0].clone();
        Graph { kind: Kind::None, folder: home.join("info"), home, places: self.clone() }
    }

    /// The first folder in which a commit-graph may be, and which may not be entered.
    pub fn closed(&self) -> Option<PathBuf> {
        let below = |home: &PathBuf| [home.join("info"), home.join("info/commit-graphs")];
        self.searched()
            .iter()
            .flat_map(below)
            .find(|path| path.is_dir() && !may(path, Right::Enter))
    }
}

/// The commit-graph that was found at one moment.
#[derive(Clone, Debug)]
pub struct Graph {
    pub kind: Kind,
    /// The object folder in which it is, and the folder `info` there.
    pub home: PathBuf,
    pub folder: PathBuf,
    places: Places,
}

/// A folder in which a program runs, and the path of the commit-graph from there: the programs take
/// no other bytes than text.
#[derive(Clone, Debug)]
pub struct Place {
    pub folder: PathBuf,
    pub graph: &'static str,
}

impl Place {
    /// The whole path.
    pub fn path(&self) -> PathBuf {
        self.folder.join(self.graph)
    }
}

impl Graph {
    /// The path of the one file.
    pub fn file(&self) -> PathBuf {
        self.folder.join("commit-graph")
    }

    /// The path of the chain file.
    pub fn chain_file(&self) -> PathBuf {
        self.folder.join("commit-graphs/commit-graph-chain")
    }

    /// The path of the file that counts as the commit-graph, or of the chain file.
    pub fn main_file(&self) -> PathBuf {
        match self.kind {
            Kind::Chain => self.chain_file(),
            _ => self.file(),
        }
    }

    /// The lines of the chain file.
    pub fn chain_lines(&self) -> Vec<Vec<u8>> {
        lines_of(&fs::read(self.chain_file()).unwrap_or_default())
    }

    /// The path of the layer that a line names, in the first object folder that has it.
    pub fn layer_path(&self, line: &[u8]) -> PathBuf {
        let name = Path::new("commit-graphs").join(layer_name(line));
        let places = self.places.folders.iter().map(|folder| folder.join("info").join(&name));
        places.into_iter().find(|path| is_there(path)).unwrap_or_else(|| self.folder.join(&name))
    }

    /// The paths of the files of all layers.
    pub fn layer_files(&self) -> Vec<PathBuf> {
        match self.kind {
            Kind::File => vec![self.file()],
            _ => self.chain_lines().iter().map(|line| self.layer_path(line)).collect(),
        }
    }

    /// The path of the file of a layer, which is known by its number.
    pub fn layer_file(&self, number: usize) -> PathBuf {
        match self.kind {
            Kind::File => self.file(),
            _ => self.layer_path(self.chain_lines().get(number).map_or(&[], |line| line)),
        }
    }

    /// Whether it is a chain of two layers or more.
    pub fn has_layers(&self) -> bool {
        self.kind == Kind::Chain && self.chain_lines().len() >= 2
    }

    /// Which commit-graph there is at this moment: of a chain its lines and when they were written.
    /// A file is read as it was when it was opened, whatever takes its place.
    pub fn identity(&self) -> impl PartialEq {
        let chain = (self.kind == Kind::Chain)
            .then(|| (inode(&self.chain_file()), fs::read(self.chain_file()).unwrap_or_default()));
        (self.kind, self.home.clone(), chain)
    }

    /// Where the commit-graph is, and which file it is, or of which layers.
    pub fn stamp(&self) -> Stamp {
        Stamp {
            kind: self.kind,
            home: self.home.clone(),
            file: (self.kind == Kind::File).then(|| inode(&self.file())).flatten(),
            layers: if self.kind == Kind::Chain { self.chain_lines() } else { Vec::new() },
        }
    }

    /// Whether some layer of a chain stands in another object folder than the chain.
    pub fn is_scattered(&self) -> bool {
        let inside = |line: &Vec<u8>| self.layer_path(line).starts_with(&self.folder);
        self.kind == Kind::Chain && !self.chain_lines().iter().all(inside)
    }

    /// Makes a folder of links to the layers of a chain, as the programs look for them beside the
    /// chain file.
    fn gather_layers(&self, scratch: &Scratch) -> Result<(), Error> {
        let folder = scratch.folder()?.join("chain");
        let _ = fs::remove_dir_all(&folder);
        let copied = fs::create_dir(&folder)
            .and_then(|()| fs::copy(self.chain_file(), folder.join("commit-graph-chain")));
        if copied.is_err() && scratch.is_full() {
            return Err(scratch.no_file());
        }
        for line in self.chain_lines() {
            let layer = self.layer_path(&line);
            if let (true, Some(name)) = (layer.exists(), layer.file_name()) {
                let _ = symlink(&layer, folder.join(name));
            }
        }
        Ok(())
    }

    /// Where a program finds it. A file `commit-graph` is named by itself where `alone` says so, or
    /// where no chain is beside it: of the folder the programs would say what the chain is.
    pub fn place(&self, scratch: &Scratch, alone: bool) -> Result<Place, Error> {
        if self.is_scattered() {
            self.gather_layers(scratch)?;
            return Ok(Place { folder: scratch.folder()?.to_owned(), graph: "chain" });
        }
        let by_itself = self.kind == Kind::File && alone;
        let graph = if by_itself { "info/commit-graph" } else { "info" };
        Ok(Place { folder: self.home.clone(), graph })
    }

    /// The place of the chain beside a file.
    pub fn place_of_chain(&self, scratch: &Scratch) -> Result<Place, Error> {
        if self.is_scattered() {
            return self.place(scratch, false);
        }
        Ok(Place { folder: self.home.clone(), graph: "info/commit-graphs" })
    }

    /// The same commit-graph as if the file beside its chain were not there.
    pub fn as_chain(&self) -> Graph {
        Graph { kind: Kind::Chain, ..self.clone() }
    }

    /// The kind of hash that the lowest layer has.
    pub fn hash(&self) -> Option<Hash> {
        hash_of(&self.layer_file(0))
    }

    /// The number of the first line of the chain file that ends with CR and LF. Git takes CR for a
    /// part of the name of a layer.
    pub fn line_with_cr(&self) -> Option<usize> {
        let content = fs::read(self.chain_file()).unwrap_or_default();
        content.split(|&byte| byte == b'\n').position(|line| line.ends_with(b"\r"))
    }

    /// The line by which Git's own refusals are told, which the programs do not make: of the other
    /// kind of hash, and of a chain file whose lines end with CR and LF.
    pub fn refused_by_git(&self, hash: Hash) -> Option<String> {
        match (self.kind, self.line_with_cr()) {
            (Kind::None, _) => return None,
            (Kind::Chain, Some(number)) => return Some(format!("refused git 2 line {number}")),
            _ => {}
        }
        self.hash().filter(|&found| found != hash).map(|_| "refused git 1".to_owned())
    }

    /// Whether the commit-graph has changed-path filters, by the table of chunks of its files:
    /// those of a chain that its lines name, up to eight, and those that lie beside it, also where
    /// there is no chain file.
    pub fn has_filters(&self) -> bool {
        const MOST: usize = 8;
        match self.kind {
            Kind::File => return is_filtered(&self.file()),
            Kind::Chain => {
                let lines = self.chain_lines();
                if lines.iter().take(MOST).any(|line| is_filtered(&self.layer_path(line))) {
                    return true;
                }
            }
            Kind::None => {}
        }
        self.layers_beside().iter().any(|path| is_filtered(path))
    }

    /// The layers in the folder, whatever names them.
    pub fn layers_beside(&self) -> Vec<PathBuf> {
        let mut found: Vec<PathBuf> = fs::read_dir(self.folder.join("commit-graphs"))
            .into_iter()
            .flatten()
            .flatten()
            .filter(|entry| is_layer_name(entry.file_name().as_bytes()))
            .map(|entry| entry.path())
            .collect();
        found.sort_unstable();
        found
    }

    /// Whether the files of the commit-graph tell if there are filters.
    pub fn tells_filters(&self) -> bool {
        let tells = |path: PathBuf| tells_chunks(&head_of(&path, TABLE_BYTES));
        match self.kind {
            Kind::None => true,
            Kind::File => tells(self.file()),
            Kind::Chain => {
                let lines = self.chain_lines();
                !lines.is_empty() && lines.iter().all(|line| tells(self.layer_path(line)))
            }
        }
    }
}

/// Which commit-graph it was that was read.
#[derive(Clone, Debug, PartialEq, Eq)]
pub struct Stamp {
    kind: Kind,
    home: PathBuf,
    file: Option<(u64, i64, i64)>,
    layers: Vec<Vec<u8>>,
}

impl Stamp {
    /// Whether it is the same at the positions that there were: further layers may have come on
    /// top.
    pub fn is_below(&self, other: &Stamp) -> bool {
        (self.kind, &self.home, self.file) == (other.kind, &other.home, other.file)
            && other.layers.starts_with(&self.layers)
    }
}

/// Which file has a name, and when it was changed.
fn inode(path: &Path) -> Option<(u64, i64, i64)> {
    let file = fs::symlink_metadata(path).ok()?;
    Some((file.ino(), file.ctime(), file.ctime_nsec()))
}

/// Whether a name is that of a layer.
pub fn is_layer_name(name: &[u8]) -> bool {
    name.starts_with(b"graph-") && name.ends_with(b".graph") && name.len() >= b"graph-.graph".len()
}

/// The name of the layer with a checksum.
pub fn layer_name(checksum: &[u8]) -> OsString {
    OsString::from_vec([&b"graph-"[..], checksum, b".graph"].concat())
}

/// The lines of a chain file as the programs read them: a CR before an end is left out.
pub fn lines_of(content: &[u8]) -> Vec<Vec<u8>> {
    let mut lines: Vec<Vec<u8>> = content
        .split(|&byte| byte == b'\n')
        .map(|line| line.strip_suffix(b"\r").unwrap_or(line).to_vec())
        .collect();
    if lines.last().is_some_and(Vec::is_empty) {
        lines.pop();
    }
    lines
}

/// The first bytes of a file, or as many as can be read.
fn head_of(path: &Path, most: u64) -> Vec<u8> {
    let mut head = Vec::new();
    // A pipe gives its bytes once, and they are for the program.
    let opened = path.is_file().then(|| File::open(path).ok()).flatten();
    if let Some(file) = opened {
        let _ = file.take(most).read_to_end(&mut head);
    }
    head
}

/// The kind of hash that a layer's header names.
fn hash_of(path: &Path) -> Option<Hash> {
    match head_of(path, 6)[..] {
        [b'C', b'G', b'P', b'H', 1, 1] => Some(Hash::Sha1),
        [b'C', b'G', b'P', b'H', 1, 2] => Some(Hash::Sha256),
        _ => None,
    }
}

/// Whether the table of chunks of a file names filters.
fn is_filtered(path: &Path) -> bool {
    const HEAD: u64 = 256;
    let named = |head: &[u8]| contains(head, b"BDAT") || contains(head, b"BIDX");
    named(&head_of(path, HEAD))
}

/// As many bytes as the largest table of chunks has, with the header.
const TABLE_BYTES: u64 = 3200;

/// Whether the table of chunks at the beginning of a file is whole: so many ids that Git knows as
/// the header says, and zeros at its end.
fn tells_chunks(head: &[u8]) -> bool {
    const HEADER: usize = 8;
    const ENTRY: usize = 12;
    const KNOWN: [&[u8]; 9] =
        [b"OIDF", b"OIDL", b"CDAT", b"EDGE", b"BASE", b"GDA2", b"GDO2", b"BIDX", b"BDAT"];
    let count = head.get(6).map_or(0, |&count| usize::from(count));
    if count == 0 || head.len() < HEADER + ENTRY * (count + 1) {
        return false;
    }
    let mut ids = head[HEADER..].chunks(ENTRY).map(|entry| &entry[..4]);
    ids.by_ref().take(count).all(|id| KNOWN.contains(&id)) && ids.next() == Some(&[0; 4])
}

#[cfg(test)]
mod tests {
    use super::*;

    #[test]
    fn lines_with_an_end_or_without() {
        let lines = |text: &[u8]| lines_of(text).len();
        assert_eq!(lines(b""), 0);
        assert_eq!(lines(b"aa"), 1);
        assert_eq!(lines(b"aa\nbb\n"), 2);
        assert_eq!(lines(b"aa\n\n"), 2);
        assert_eq!(lines_of(b"aa\r\nbb\r"), [b"aa", b"bb"]);
    }

    #[test]
    fn a_whole_table_of_chunks() {
        let mut head = b"CGPH\x01\x01\x02\x00".to_vec();
        for id in [b"OIDF", b"BDAT", &[0; 4]] {
            head.extend_from_slice(id);
            head.extend_from_slice(&[0; 8]);
        }
        assert!(tells_chunks(&head));
        assert!(!tells_chunks(&head[..head.len() - 1]));
        head[8] = b'X';
        assert!(!tells_chunks(&head));
        assert!(!tells_chunks(b""));
        assert!(!tells_chunks(&[0; 100]));
    }

    #[test]
    fn layers_on_top_change_nothing_below() {
        let stamp = |layers: &[&str]| Stamp {
            kind: Kind::Chain,
            home: "a".into(),
            file: None,
            layers: layers.iter().map(|line| line.as_bytes().to_vec()).collect(),
        };
        assert!(stamp(&["a", "b"]).is_below(&stamp(&["a", "b", "c"])));
        assert!(!stamp(&["a", "b"]).is_below(&stamp(&["a"])));
        assert!(!stamp(&["a"]).is_below(&stamp(&["b"])));
    }
}
