//! What stands at a path: the library says what it has to know of paths, and opens the files that were read.

use crate::error::IS_FOLDER;
use crate::room::{collected, reserved};
use crate::{codes, sys, Bytes, FileError, Graph, GraphError, OpenError};
use std::collections::HashMap;
use std::ffi::OsStr;
use std::fs::File;
use std::io::{self, ErrorKind, Read};
use std::os::unix::ffi::OsStrExt;
use std::path::{Path, PathBuf};

/// What a path is taken for.
#[derive(Clone, Copy, Debug, PartialEq, Eq)]
pub enum Place {
    /// What stands there: a file, a folder with a chain, or an info folder.
    Anything = sys::ANYTHING as isize,
    /// A file.
    File = sys::FILE as isize,
    /// A folder with a chain.
    ChainFolder = sys::CHAIN_FOLDER as isize,
    /// An info folder: its file, or where that is not there or is refused, the chain in it; but not where memory ran out.
    InfoFolder = sys::INFO_FOLDER as isize,
}

/// The file of a layer.
#[derive(Clone, Debug)]
pub struct LayerFile {
    /// Its path, which may be empty.
    pub path: PathBuf,
    /// Its bytes.
    pub bytes: Bytes,
}

/// What stands at a path, by its number in `commitgraph.h`; and why a file was not read.
enum Standing {
    Nothing(io::Error),
    File(Bytes),
    Folder,
    NotOpened(io::Error),
    NotRead(io::Error),
    NoMemory,
}

/// A path that the library has asked for, and what stands there.
struct Known {
    path: Vec<u8>,
    standing: Standing,
}

/// Opens what stands at a path. Where it is refused, the refusal of an info folder's file is not hidden by that of its chain.
pub(crate) fn open(path: &Path, place: Place) -> Result<Graph, OpenError> {
    let (root, asked) = root_and_asked(path);
    let mut known = Vec::new();
    open_known(&mut known, root, asked, place).map_err(|error| with_refusal_of_file(known, root, asked, error))
}

/// The same, with the files of the layers.
pub(crate) fn with_files(path: &Path, place: Place) -> Result<(Graph, Vec<LayerFile>), OpenError> {
    let graph = open(path, place)?;
    let files = graph.paths.iter().zip(&graph.bytes).map(|(path, bytes)| LayerFile { path: path.clone(), bytes: bytes.clone() });
    let files = collected(files).map_err(|_| OpenError::OutOfMemory)?;
    Ok((graph, files))
}

/// The graph of these files, the lowest layer first, which it keeps.
pub(crate) fn of_files(files: Vec<LayerFile>) -> Result<Graph, OpenError> {
    let layers = collected(files.iter().map(|file| (&file.bytes[..], text_of(&file.path)))).map_err(|_| OpenError::OutOfMemory)?;
    // SAFETY: the graph keeps the bytes until it is dropped.
    let opened = unsafe { Graph::lend(&layers) };
    drop(layers);
    let mut graph = opened.map_err(|error| match error {
        OpenError::Layer { layer, error, .. } => OpenError::Layer { layer, path: files[layer].path.clone(), error },
        error => error,
    })?;
    let no_memory = |_| OpenError::OutOfMemory;
    (graph.paths, graph.bytes) = (reserved(files.len()).map_err(no_memory)?, reserved(files.len()).map_err(no_memory)?);
    for LayerFile { path, bytes } in files {
        graph.paths.push(path);
        graph.bytes.push(bytes);
    }
    Ok(graph)
}

/// Why a chain was not opened, and why the file of its info folder was not, if that was looked for.
fn with_refusal_of_file(mut known: Vec<Known>, root: &Path, asked: &str, chain: OpenError) -> OpenError {
    let file = known.iter().find(|it| it.path != asked.as_bytes() && it.path.ends_with(FILE)).map(|it| it.path.clone());
    let Some(file) = file.filter(|_| !chain.is_settled()).and_then(|path| String::from_utf8(path).ok()) else {
        return chain;
    };
    match open_known(&mut known, root, &file, Place::File) {
        Err(file) => OpenError::of_both(file, chain),
        Ok(_) => chain,
    }
}

/// The names of the files in an info folder and in a folder with a chain.
const FILE: &[u8] = b"commit-graph";
const CHAIN_FILE: &[u8] = b"commit-graph-chain";

/// The folder at which paths for the library begin, and the path that it is asked for, which has to be text. Where the folder alone
/// is no text, the path is the file's name, since the check compares the name of a layer's file with its checksum.
fn root_and_asked(path: &Path) -> (&Path, &str) {
    match (path.to_str(), path.parent(), path.file_name().and_then(OsStr::to_str)) {
        (Some(text), ..) => (Path::new(""), text),
        (None, Some(folder), Some(name)) => (folder, name),
        _ => (path, ""),
    }
}

/// The path of a file for the library, which has to be text: where it is none, the file's name.
fn text_of(path: &Path) -> &str {
    root_and_asked(path).1
}

/// Opens what stands at a path, by as many calls as there are paths that the library asks for and that are not known. What it would
/// open of a file is opened where the file was read, so that no byte is copied.
fn open_known(known: &mut Vec<Known>, root: &Path, asked: &str, place: Place) -> Result<Graph, OpenError> {
    let no_memory = |_| OpenError::OutOfMemory;
    loop {
        let mut raw = sys::CLOSED;
        let mut file = [0; ROOM];
        let lent = collected(known.iter().map(Known::lent)).map_err(no_memory)?;
        // SAFETY: each pointer and length are those of a slice or an array, none is null, and `raw` is CG_CLOSED.
        let told = unsafe {
            let (count, out) = (lent.len(), &mut raw);
            sys::cg_open_known(asked.as_ptr(), asked.len(), place as u32, lent.as_ptr(), count, file.as_mut_ptr(), ROOM, out)
        };
        let file = &file[..ROOM.min(told.length as usize)];
        match told.code {
            codes::OK => {
                // A file that was refused where it is lent: then it is opened by no copy either, so that this does not come.
                let mut graph = Graph::of_raw(raw, Vec::new());
                (graph.paths, graph.bytes) = known.iter().filter_map(|it| it.file(root)).map(|file| (file.path, file.bytes)).unzip();
                return Ok(graph);
            }
            codes::PATH_WANTED if told.length as usize <= ROOM => {
                let found = Known { path: file.to_vec(), standing: Standing::at(&whole(root, file)) };
                if let Some(answer) = opened_of(&found, root, asked) {
                    return answer;
                }
                known.try_reserve(1).map_err(no_memory)?;
                known.push(found);
            }
            _ => return Err(refusal(&told, root, asked, file, known)),
        }
    }
}

/// What is opened of a file that the library has asked for, since it opens nothing else where there is one: the chain, of a chain
/// file, which it asks for only then; else the file, as the only layer, unless it is refused. Then the library says how to go on.
fn opened_of(found: &Known, root: &Path, asked: &str) -> Option<Result<Graph, OpenError>> {
    let file = found.file(root)?;
    if found.path != asked.as_bytes() && found.path.ends_with(CHAIN_FILE) {
        return Some(open_chain(root, &found.path, &file.bytes));
    }
    match of_files(vec![file]) {
        Err(OpenError::OutOfMemory) => Some(Err(OpenError::OutOfMemory)),
        opened => opened.ok().map(Ok),
    }
}

/// Opens the layers that the lines of a chain file name, up to the first line whose layer is not read. A layer that is refused comes
/// before that line.
fn open_chain(root: &Path, chain: &[u8], text: &[u8]) -> Result<Graph, OpenError> {
    let (files, obstacle) = files_of_chain(root, chain, text);
    match (of_files(files), obstacle) {
        (Err(error @ (OpenError::Layer { .. } | OpenError::OutOfMemory)), _) | (_, Some(error)) => Err(error),
        (Err(OpenError::Graph { error, .. }), None) => Err(OpenError::Graph { path: whole(root, chain), error }),
        (opened, None) => opened,
    }
}

/// The files of the layers that the lines of a chain file name, up to the first that is not read, and why that one is not. Each file
/// is read once, however many lines name it.
fn files_of_chain(root: &Path, chain: &[u8], text: &[u8]) -> (Vec<LayerFile>, Option<OpenError>) {
    let mut files: Vec<LayerFile> = Vec::new();
    let mut numbers = HashMap::new();
    for (number, line) in chain_lines(text).enumerate() {
        if files.try_reserve(1).is_err() || numbers.try_reserve(1).is_err() {
            return (files, Some(OpenError::OutOfMemory));
        }
        let first = *numbers.entry(line).or_insert(number);
        let file = match files.get(first) {
            Some(read) => Ok(read.clone()),
            None => file_of_line(root, chain, number, line),
        };
        match file {
            Ok(file) => files.push(file),
            Err(error) => return (files, Some(error)),
        }
    }
    (files, None)
}

/// The file of the layer that a line of a chain file names.
fn file_of_line(root: &Path, chain: &[u8], number: usize, line: &[u8]) -> Result<LayerFile, OpenError> {
    if std::str::from_utf8(line).is_err() {
        return Err(OpenError::ChainLine { path: whole(root, chain), line: number });
    }
    let folder = &chain[..chain.len() - CHAIN_FILE.len()];
    let path = whole(root, &[folder, b"graph-", line, b".graph"].concat());
    match Standing::at(&path) {
        Standing::File(bytes) => Ok(LayerFile { path, bytes }),
        Standing::NoMemory => Err(OpenError::OutOfMemory),
        standing => Err(OpenError::Io { error: standing.said().unwrap_or_else(nothing), path }),
    }
}

/// For a path of so many bytes there is room. The system opens no longer ones.
const ROOM: usize = 4096;

/// A path that the library names, from the root on.
fn whole(root: &Path, path: &[u8]) -> PathBuf {
    match (root.as_os_str().is_empty(), path) {
        (false, []) => root.to_owned(),
        _ => root.join(OsStr::from_bytes(path)),
    }
}

impl Standing {
    /// What stands at a path. A file is read whole.
    fn at(path: &Path) -> Standing {
        match std::fs::metadata(path) {
            Ok(told) if told.is_dir() => Standing::Folder,
            Ok(_) => File::open(path).map_or_else(|error| Standing::failed(error, Standing::NotOpened), Standing::of),
            Err(error) => Standing::failed(error, Standing::Nothing),
        }
    }

    /// What an error of the system says of a file. Want of memory says nothing of the file.
    fn failed(error: io::Error, told: fn(io::Error) -> Standing) -> Standing {
        if error.kind() == ErrorKind::OutOfMemory { Standing::NoMemory } else { told(error) }
    }

    /// What an open file has.
    fn of(mut file: File) -> Standing {
        let mut bytes = Vec::new();
        let expected = file.metadata().map_or(0, |told| told.len());
        if bytes.try_reserve_exact(usize::try_from(expected).unwrap_or(usize::MAX)).is_err() {
            return Standing::NoMemory;
        }
        match file.read_to_end(&mut bytes) {
            Ok(_) => Standing::File(bytes.into()),
            Err(error) => Standing::failed(error, Standing::NotRead),
        }
    }

    /// What the system said of a file that was not read.
    fn said(&self) -> Option<io::Error> {
        match self {
            Standing::Nothing(error) | Standing::NotOpened(error) | Standing::NotRead(error) => Some(copied(error)),
            Standing::Folder => Some(io::Error::from_raw_os_error(IS_FOLDER)),
            Standing::File(_) | Standing::NoMemory => None,
        }
    }
}

impl Known {
    /// The file, if one was read.
    fn file(&self, root: &Path) -> Option<LayerFile> {
        match &self.standing {
            Standing::File(bytes) => Some(LayerFile { path: whole(root, &self.path), bytes: bytes.clone() }),
            _ => None,
        }
    }

    /// What the library is told of it.
    fn lent(&self) -> sys::Known {
        let (bytes, kind) = match &self.standing {
            Standing::Nothing(_) => (&[][..], sys::NOTHING),
            Standing::File(bytes) => (&bytes[..], sys::READ),
            Standing::Folder => (&[][..], sys::FOLDER),
            Standing::NotOpened(_) => (&[][..], sys::UNOPENED),
            Standing::NotRead(_) => (&[][..], sys::UNREAD),
            Standing::NoMemory => (&[][..], sys::NO_MEMORY),
        };
        sys::Known { path: self.path.as_ptr(), path_len: self.path.len(), bytes: bytes.as_ptr(), len: bytes.len(), kind }
    }
}

/// Why no graph was opened at a path; the file was the last that was to be read.
fn refusal(told: &sys::PathError, root: &Path, asked: &str, file: &[u8], known: &[Known]) -> OpenError {
    let layer = told.layer as usize;
    let path = whole(root, file);
    match told.code {
        codes::OUT_OF_MEMORY => OpenError::OutOfMemory,
        codes::OPEN_NOTHING_FOUND => {
            let said = known.iter().find_map(|it| it.standing.said());
            OpenError::Io { path: whole(root, asked.as_bytes()), error: said.unwrap_or_else(nothing) }
        }
        codes::OPEN_CHAIN_NOT_TEXT => OpenError::ChainLine { path: path.with_file_name("commit-graph-chain"), line: layer },
        code => match (FileError::of(code), GraphError::of(code, layer)) {
            (Some(error), _) => OpenError::Layer { layer, path, error },
            (_, Some(error)) => OpenError::Graph { path: path.with_file_name("commit-graph-chain"), error },
            _ => {
                let said = known.iter().find(|it| it.path == file).and_then(|it| it.standing.said());
                OpenError::Io { error: said.unwrap_or_else(nothing), path }
            }
        },
    }
}

/// What is said where the system said nothing.
fn nothing() -> io::Error {
    ErrorKind::NotFound.into()
}

/// The same error: the system's by its number, others by kind and text.
fn copied(error: &io::Error) -> io::Error {
    error.raw_os_error().map_or_else(|| io::Error::new(error.kind(), error.to_string()), io::Error::from_raw_os_error)
}

/// The lines of a chain file, `commit-graph-chain`, each of which names a layer, from the lowest on: the line L is the layer of
/// the file `graph-L.graph` in the same folder.
pub fn chain_lines(text: &[u8]) -> impl Iterator<Item = &[u8]> {
    let mut start = 0;
    std::iter::from_fn(move || {
        // SAFETY: the pointer and the length are those of a slice.
        let line = unsafe { sys::cg_chain_line(text.as_ptr(), text.len(), start) };
        let found = line.found.then(|| &text[start..line.end])?;
        start = line.next;
        Some(found)
    })
}

#[cfg(test)]
mod tests {
    use super::*;
    use std::fs;

    /// Each call of the library looks for paths among all that are known, so that a chain of many lines may not add to them.
    #[test]
    fn the_library_is_told_of_no_layer() {
        for lines in [1, 1_000] {
            let folder = std::env::temp_dir().join(format!("commitgraph-{}-{lines}", std::process::id()));
            fs::create_dir_all(&folder).unwrap();
            let text: String = (0..lines).map(|line| format!("{line}\n")).collect();
            fs::write(folder.join("commit-graph-chain"), text).unwrap();
            for line in 0..lines - 1 {
                fs::write(folder.join(format!("graph-{line}.graph")), b"CGPH").unwrap();
            }
            for place in [Place::ChainFolder, Place::Anything] {
                let mut known = Vec::new();
                assert!(open_known(&mut known, Path::new(""), folder.to_str().unwrap(), place).is_err());
                assert!(known.len() < 3, "{}", known.len());
            }
            fs::remove_dir_all(&folder).unwrap();
        }
    }
}
