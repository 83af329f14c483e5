//! Why a graph is refused. What an error says is what `docs/REFUSALS.md` says of it.

use crate::{advice, codes, sys, FileError, GraphError, ObjectId, Position};
use std::collections::TryReserveError;
use std::fmt;
use std::path::{Path, PathBuf};

/// What the system says where a path names nothing, and where a part of it that should be a folder is none.
const NO_SUCH_ENTRY: i32 = 2;
const NO_FOLDER: i32 = 20;

/// What it says where a read failed.
const READ_FAILED: i32 = 5;

/// What it says where a folder is read as a file.
pub(crate) const IS_FOLDER: i32 = 21;

/// What is said where there is no memory.
const OUT_OF_MEMORY: &str = "memory ran out";

/// Why no graph was opened. What the system says of a file that was not read is the source.
#[derive(Debug)]
#[non_exhaustive]
pub enum OpenError {
    /// A file could not be read.
    Io {
        /// The file.
        path: PathBuf,
        /// What the system says.
        error: std::io::Error,
    },
    /// A line of a chain file is not UTF-8.
    ChainLine {
        /// The chain file.
        path: PathBuf,
        /// The line, counted from 0.
        line: usize,
    },
    /// The bytes of a layer are refused.
    Layer {
        /// The layer, counted from 0.
        layer: usize,
        /// The path of its file, which is empty where it was given none.
        path: PathBuf,
        /// Why.
        error: FileError,
    },
    /// The layers make no graph.
    Graph {
        /// The path of the chain file, which is empty for layers whose bytes were given.
        path: PathBuf,
        /// Why.
        error: GraphError,
    },
    /// The check refuses the graph.
    Check(CheckError),
    /// Of an info folder neither the file nor the chain was opened, and neither is missing.
    Neither {
        /// Why the file was not.
        file: Box<OpenError>,
        /// Why the chain was not.
        chain: Box<OpenError>,
    },
    /// A limit stopped the check.
    Stopped {
        /// The first commit that it did not go on with.
        pos: Position,
    },
    /// Memory ran out.
    OutOfMemory,
}

impl OpenError {
    /// What to do, with the commands to type in the repository of what was opened, and the paths of what is to be removed before;
    /// empty where that is not known.
    #[must_use]
    pub fn advice(&self) -> String {
        let advice = match self {
            OpenError::Io { error, .. } if error.raw_os_error() == Some(READ_FAILED) => advice::READ_FAILED,
            OpenError::Io { error, .. } if error.raw_os_error() == Some(IS_FOLDER) => "name a file in it, or open the folder by `at`",
            OpenError::Io { .. } => advice::NOT_OPENED,
            OpenError::Neither { file, chain } if file.is_io() && chain.is_io() => return chain.advice(),
            OpenError::Neither { file, chain } => return advice::naming(advice::ANEW, &[file.path(), chain.path()]),
            OpenError::Graph { error: GraphError::TooManyCommits, .. } => advice::TOO_MANY_COMMITS,
            OpenError::Graph { path, error: GraphError::NoFiles } if path.as_os_str().is_empty() => "hand in at least one",
            OpenError::ChainLine { .. } | OpenError::Layer { .. } | OpenError::Graph { .. } => advice::ANEW,
            OpenError::Check(error) => return error.advice(),
            OpenError::Stopped { .. } => "",
            OpenError::OutOfMemory => advice::MEMORY,
        };
        advice::naming(advice, &[self.path()])
    }

    /// The path that it is about, which may be empty.
    fn path(&self) -> &Path {
        match self {
            OpenError::Io { path, .. } | OpenError::ChainLine { path, .. } => path,
            OpenError::Layer { path, .. } | OpenError::Graph { path, .. } => path,
            OpenError::Check(error) => &error.path,
            OpenError::Neither { .. } | OpenError::Stopped { .. } | OpenError::OutOfMemory => Path::new(""),
        }
    }

    /// Whether an info folder's chain is not tried after this error of its file.
    pub(crate) fn is_settled(&self) -> bool {
        matches!(self, OpenError::Check(_) | OpenError::OutOfMemory)
    }

    /// Whether a file could not be read.
    fn is_io(&self) -> bool {
        matches!(self, OpenError::Io { .. })
    }

    /// Whether a file is not there, or what should be its folder is none.
    fn is_missing(&self) -> bool {
        matches!(self, OpenError::Io { error, .. } if matches!(error.raw_os_error(), Some(NO_SUCH_ENTRY | NO_FOLDER)))
    }

    /// Why neither the file of an info folder nor its chain was opened, by why each was not.
    pub(crate) fn of_both(file: OpenError, chain: OpenError) -> OpenError {
        if file.is_missing() || file.is_settled() || chain.is_settled() {
            chain
        } else if chain.is_missing() {
            file
        } else {
            OpenError::Neither { file: Box::new(file), chain: Box::new(chain) }
        }
    }
}

/// What happened, with the file and the commit of which it speaks.
impl fmt::Display for OpenError {
    fn fmt(&self, f: &mut fmt::Formatter<'_>) -> fmt::Result {
        match self {
            OpenError::Io { path, .. } => write!(f, "cannot read {}", path.display()),
            OpenError::ChainLine { path, line } => {
                write!(f, "{}: line {} of the chain file, counted from 1, is not UTF-8", path.display(), line + 1)
            }
            OpenError::Layer { layer, path, error } if path.as_os_str().is_empty() => write!(f, "layer {layer}: {error}"),
            OpenError::Layer { path, error, .. } => write!(f, "{}: {error}", path.display()),
            OpenError::Graph { path, error: GraphError::NoFiles } if path.as_os_str().is_empty() => f.write_str("no layer is handed in"),
            OpenError::Graph { path, error } if path.as_os_str().is_empty() => write!(f, "{error}"),
            OpenError::Graph { path, error } => write!(f, "{}: {error}", path.display()),
            OpenError::Check(error) => write!(f, "{error}"),
            OpenError::Neither { file, chain } => {
                write!(f, "neither the file nor the chain was opened: ")?;
                file.write_with_source(f)?;
                write!(f, "; ")?;
                chain.write_with_source(f)
            }
            OpenError::Stopped { pos } => write!(f, "a limit or a flag stopped the check before the commit at position {pos}"),
            OpenError::OutOfMemory => f.write_str(OUT_OF_MEMORY),
        }
    }
}

impl OpenError {
    /// What happened, where no one above asks for the source.
    fn write_with_source(&self, f: &mut fmt::Formatter<'_>) -> fmt::Result {
        match self {
            OpenError::Io { error, .. } => write!(f, "{self}: {error}"),
            _ => write!(f, "{self}"),
        }
    }
}

impl std::error::Error for OpenError {
    fn source(&self) -> Option<&(dyn std::error::Error + 'static)> {
        match self {
            OpenError::Io { error, .. } => Some(error),
            _ => None,
        }
    }
}

/// Why a check refuses a graph: its first fault, with the file and the commit of which that speaks.
#[derive(Clone, Debug, PartialEq, Eq)]
#[non_exhaustive]
pub struct CheckError {
    /// The fault.
    pub fault: Fault,
    /// The path of the layer's file, or of the chain file where there are too many layers. It is empty where it is not known.
    pub path: PathBuf,
    /// The id of the commit, if the fault is one of a commit and its id could be read.
    pub id: Option<ObjectId>,
}

impl CheckError {
    /// What to do, with the commands to type in the repository of the file, and the path of what is to be removed before.
    #[must_use]
    pub fn advice(&self) -> String {
        advice::naming(self.fault.advice(), &[&self.path])
    }
}

impl fmt::Display for CheckError {
    fn fmt(&self, f: &mut fmt::Formatter<'_>) -> fmt::Result {
        if !self.path.as_os_str().is_empty() {
            write!(f, "{}: ", self.path.display())?;
        }
        self.fault.fmt(f)?;
        if let Some(id) = self.id {
            write!(f, "; the commit is {id}")?;
        }
        Ok(())
    }
}

impl std::error::Error for CheckError {}

/// What the check of a graph finds wrong: its first fault.
#[derive(Clone, Copy, Debug, PartialEq, Eq)]
#[non_exhaustive]
pub enum Fault {
    /// There are more than 256 layers.
    TooManyFiles,
    /// The layer does not have one base id for each layer below it.
    BaseCount {
        /// The layer, counted from 0.
        layer: usize,
    },
    /// A base id is not the checksum of the layer that it stands for.
    BaseId {
        /// The layer that has the base id.
        layer: usize,
        /// The number of the base id, and of the layer that it stands for.
        index: usize,
    },
    /// Something is wrong with a layer as a whole.
    Layer {
        /// The layer, counted from 0.
        layer: usize,
        /// What is wrong.
        fault: LayerFault,
    },
    /// Something is wrong with the ids of a commit.
    Commit {
        /// The commit's position.
        pos: Position,
        /// What is wrong.
        fault: CommitFault,
    },
    /// The parents of a commit cannot be decoded.
    Parent {
        /// The commit's position.
        pos: Position,
        /// Why.
        error: ParentError,
    },
    /// A parent of a commit stands neither in its layer nor in one below.
    ParentOutOfRange {
        /// The commit's position.
        pos: Position,
        /// The position that is given for its parent.
        parent: Position,
    },
    /// The generation number of a commit is not the expected one.
    Generation {
        /// The commit's position.
        pos: Position,
        /// One more than the greatest of its parents'.
        expected: u32,
    },
    /// The id of a commit stands at an earlier position too.
    DuplicateId {
        /// The commit's position.
        pos: Position,
        /// The earlier position.
        earlier: Position,
    },
}

impl Fault {
    /// What to do, with the commands to type at the top of the repository. [`CheckError::advice`] names the file that was opened.
    #[must_use]
    pub fn advice(&self) -> &'static str {
        match self {
            Fault::BaseCount { .. } => advice::BASE_COUNT,
            Fault::Layer { fault: LayerFault::Checksum, .. } => advice::CHECKSUM,
            Fault::Layer { fault: LayerFault::FileName, .. } => advice::FILE_NAME,
            _ => advice::ANEW,
        }
    }

    /// The layer, if the fault is one of a layer as a whole.
    pub(crate) fn layer(&self) -> Option<usize> {
        match *self {
            Fault::BaseCount { layer } | Fault::BaseId { layer, .. } | Fault::Layer { layer, .. } => Some(layer),
            _ => None,
        }
    }

    /// The position of the commit, if the fault is one of a commit.
    pub(crate) fn pos(&self) -> Option<Position> {
        match *self {
            Fault::TooManyFiles | Fault::BaseCount { .. } | Fault::BaseId { .. } | Fault::Layer { .. } => None,
            Fault::Commit { pos, .. }
            | Fault::Parent { pos, .. }
            | Fault::ParentOutOfRange { pos, .. }
            | Fault::Generation { pos, .. }
            | Fault::DuplicateId { pos, .. } => Some(pos),
        }
    }
}

impl fmt::Display for Fault {
    fn fmt(&self, f: &mut fmt::Formatter<'_>) -> fmt::Result {
        match self {
            Fault::TooManyFiles => f.write_str("there are more than 256 layers"),
            Fault::BaseCount { layer } => {
                write!(f, "layer {layer} has another number of base layers than there are layers before it")
            }
            Fault::BaseId { layer, index } => {
                write!(f, "base id {index} of layer {layer} is not the checksum of layer {index}")
            }
            Fault::Layer { layer, fault } => write!(f, "layer {layer}: {fault}"),
            Fault::Commit { pos, fault } => write!(f, "the commit at position {pos}: {fault}"),
            Fault::Parent { pos, error } => {
                write!(f, "the commit at position {pos}: its parents cannot be read: {error}")
            }
            Fault::ParentOutOfRange { pos, parent } => write!(
                f,
                "the commit at position {pos}: its parent, position {parent}, lies past the end of the commit's own layer"
            ),
            Fault::Generation { pos, expected } => write!(
                f,
                "the commit at position {pos}: its generation number is not {expected}, one more than the greatest of its parents'"
            ),
            Fault::DuplicateId { pos, earlier } => {
                write!(f, "the commit at position {pos}: its id stands at position {earlier} too, in an earlier layer")
            }
        }
    }
}

impl std::error::Error for Fault {}

/// What is wrong with a layer as a whole.
#[derive(Clone, Copy, Debug, PartialEq, Eq)]
#[non_exhaustive]
pub enum LayerFault {
    /// The checksum is not the digest of the bytes before it.
    Checksum,
    /// The file is named as a layer of a chain, and not after its checksum.
    FileName,
    /// The fan does not count the ids whose first byte is at most this one.
    Fan {
        /// The byte.
        byte: u8,
    },
}

impl fmt::Display for LayerFault {
    fn fmt(&self, f: &mut fmt::Formatter<'_>) -> fmt::Result {
        match self {
            LayerFault::Checksum => f.write_str("the checksum is not the digest of its bytes: they were changed or lost"),
            LayerFault::FileName => f.write_str("the file is named `graph-X.graph`, and X is not its checksum"),
            LayerFault::Fan { byte } => {
                write!(f, "the fan (chunk `OIDF`) does not count the ids whose first byte is at most {byte}")
            }
        }
    }
}

/// What is wrong with the ids of a commit.
#[derive(Clone, Copy, Debug, PartialEq, Eq)]
#[non_exhaustive]
pub enum CommitFault {
    /// Its id is null.
    NullId,
    /// Its id is not above the one before it in its layer.
    Order,
    /// The id of its root tree is null.
    NullTree,
}

impl fmt::Display for CommitFault {
    fn fmt(&self, f: &mut fmt::Formatter<'_>) -> fmt::Result {
        f.write_str(match self {
            CommitFault::NullId => "its id is null, all zeros",
            CommitFault::Order => "its id is not above the one before it in its layer",
            CommitFault::NullTree => "the id of its root tree is null",
        })
    }
}

/// The fault that a verdict tells of.
pub(crate) fn fault_of(verdict: &sys::Verdict) -> Fault {
    let layer = verdict.layer as usize;
    let pos = Position(verdict.position);
    let in_layer = |fault| Fault::Layer { layer, fault };
    let in_commit = |fault| Fault::Commit { pos, fault };
    match verdict.code {
        codes::CHECK_TOO_MANY_FILES => Fault::TooManyFiles,
        codes::CHECK_BASE_COUNT => Fault::BaseCount { layer },
        codes::CHECK_BASE_ID => Fault::BaseId { layer, index: verdict.index as usize },
        codes::CHECK_CHECKSUM => in_layer(LayerFault::Checksum),
        codes::CHECK_FILE_NAME => in_layer(LayerFault::FileName),
        codes::CHECK_FAN => in_layer(LayerFault::Fan { byte: verdict.other as u8 }),
        codes::CHECK_NULL_ID => in_commit(CommitFault::NullId),
        codes::CHECK_ORDER => in_commit(CommitFault::Order),
        codes::CHECK_NULL_TREE => in_commit(CommitFault::NullTree),
        codes::CHECK_PARENT_OUT_OF_RANGE => Fault::ParentOutOfRange { pos, parent: Position(verdict.other) },
        codes::CHECK_GENERATION => Fault::Generation { pos, expected: verdict.other },
        codes::CHECK_DUPLICATE_ID => Fault::DuplicateId { pos, earlier: Position(verdict.other) },
        code => Fault::Parent { pos, error: ParentError::of(code).expect("no other fault is told") },
    }
}

/// Why a check ended without statistics.
#[derive(Clone, Copy, Debug, PartialEq, Eq)]
#[non_exhaustive]
pub enum VerifyError<E> {
    /// The graph is not right. [`Graph::check_error`](crate::Graph::check_error) tells the file and the commit.
    Fault(Fault),
    /// The processor refused a commit.
    Processor {
        /// The commit's position.
        pos: Position,
        /// What it answered.
        error: E,
    },
    /// Memory ran out.
    OutOfMemory,
}

impl<E> fmt::Display for VerifyError<E> {
    fn fmt(&self, f: &mut fmt::Formatter<'_>) -> fmt::Result {
        match self {
            VerifyError::Fault(fault) => fault.fmt(f),
            VerifyError::Processor { pos, .. } => write!(f, "the processor refused the commit at position {pos}"),
            VerifyError::OutOfMemory => f.write_str(OUT_OF_MEMORY),
        }
    }
}

impl<E: std::error::Error + 'static> std::error::Error for VerifyError<E> {
    fn source(&self) -> Option<&(dyn std::error::Error + 'static)> {
        match self {
            VerifyError::Processor { error, .. } => Some(error),
            _ => None,
        }
    }
}

/// Why a query has no answer.
#[derive(Clone, Copy, Debug, PartialEq, Eq)]
#[non_exhaustive]
pub enum QueryError {
    /// A position is none of the graph's.
    NoSuchPosition,
    /// A limit stopped the search.
    Stopped,
    /// Memory ran out.
    OutOfMemory,
}

impl fmt::Display for QueryError {
    fn fmt(&self, f: &mut fmt::Formatter<'_>) -> fmt::Result {
        f.write_str(match self {
            QueryError::NoSuchPosition => "the graph has no such position",
            QueryError::Stopped => "a limit or a flag stopped the search",
            QueryError::OutOfMemory => OUT_OF_MEMORY,
        })
    }
}

impl std::error::Error for QueryError {}

impl From<TryReserveError> for QueryError {
    fn from(_: TryReserveError) -> QueryError {
        QueryError::OutOfMemory
    }
}

/// Why many questions, of pairs or of positions, were not all answered.
#[derive(Clone, Copy, Debug, PartialEq, Eq)]
#[non_exhaustive]
pub struct PairError {
    /// The number of the question, counted from 0, that has no answer. Those before it have one.
    pub index: usize,
    /// Why it has none.
    pub error: QueryError,
}

impl fmt::Display for PairError {
    fn fmt(&self, f: &mut fmt::Formatter<'_>) -> fmt::Result {
        write!(f, "number {} of those asked, counted from 0, has no answer", self.index)
    }
}

impl std::error::Error for PairError {
    fn source(&self) -> Option<&(dyn std::error::Error + 'static)> {
        Some(&self.error)
    }
}

/// Why the corrected dates of a graph are refused: the first that holds, of the lowest layer whose dates cannot be read, and
/// then of the first commit.
#[derive(Clone, Copy, Debug, PartialEq, Eq)]
#[non_exhaustive]
pub enum DatesError {
    /// The chunk `GDA2` of a layer does not have four bytes for each commit.
    DataSize {
        /// The layer, counted from 0.
        layer: usize,
    },
    /// The length of the chunk `GDO2` of a layer is no multiple of eight.
    OverflowSize {
        /// The layer, counted from 0.
        layer: usize,
    },
    /// A commit names a number that the chunk `GDO2` of its layer does not have.
    OverflowIndex {
        /// The commit's position.
        pos: Position,
    },
    /// The date of a commit is 2^63 or more.
    TooLarge {
        /// The commit's position.
        pos: Position,
    },
    /// The date of a commit is not the expected one.
    Date {
        /// The commit's position.
        pos: Position,
        /// Its time or, if later, one second after the latest date of its parents.
        expected: u64,
    },
    /// Memory ran out.
    OutOfMemory,
}

impl DatesError {
    /// The error that an answer tells of, which is neither of dates nor that there are none.
    pub(crate) fn of(told: &sys::Dates) -> DatesError {
        let (layer, pos) = (told.layer as usize, Position(told.position));
        match told.code {
            codes::DATES_DATA_SIZE => DatesError::DataSize { layer },
            codes::DATES_OVERFLOW_SIZE => DatesError::OverflowSize { layer },
            codes::DATES_OVERFLOW_INDEX => DatesError::OverflowIndex { pos },
            codes::DATES_TOO_LARGE => DatesError::TooLarge { pos },
            codes::DATES_WRONG => DatesError::Date { pos, expected: told.expected },
            _ => DatesError::OutOfMemory,
        }
    }
}

impl fmt::Display for DatesError {
    fn fmt(&self, f: &mut fmt::Formatter<'_>) -> fmt::Result {
        match self {
            DatesError::DataSize { layer } => write!(f, "layer {layer}: `GDA2` has not four bytes for each commit"),
            DatesError::OverflowSize { layer } => {
                write!(f, "layer {layer}: the length of `GDO2` is no multiple of eight")
            }
            DatesError::OverflowIndex { pos } => {
                write!(f, "the commit at position {pos}: the word of the commit is past the end of `GDO2`")
            }
            DatesError::TooLarge { pos } => {
                write!(f, "the commit at position {pos}: the date of the commit is 2^63 or more")
            }
            DatesError::Date { pos, expected } => {
                write!(f, "the commit at position {pos}: the date of the commit is not {expected}")
            }
            DatesError::OutOfMemory => f.write_str(OUT_OF_MEMORY),
        }
    }
}

impl std::error::Error for DatesError {}

impl From<TryReserveError> for DatesError {
    fn from(_: TryReserveError) -> DatesError {
        DatesError::OutOfMemory
    }
}

/// Why the changed-path filters of a graph cannot be asked: the first that holds, of the lowest layer whose filters are refused,
/// or else of the positions.
#[derive(Clone, Copy, Debug, PartialEq, Eq)]
#[non_exhaustive]
pub enum ProbeError {
    /// The chunk `BIDX` of a layer does not have four bytes for each commit.
    IndexSize {
        /// The layer, counted from 0.
        layer: usize,
    },
    /// The chunk `BDAT` of a layer has fewer than twelve bytes.
    DataSize {
        /// The layer, counted from 0.
        layer: usize,
    },
    /// The version of the hash is neither 1 nor 2.
    Version {
        /// The layer, counted from 0.
        layer: usize,
        /// The version.
        version: u32,
    },
    /// The number of hashes is 0, or more than 65,535.
    Hashes {
        /// The layer, counted from 0.
        layer: usize,
        /// The number of hashes.
        hashes: u32,
    },
    /// The number of bits per entry is 0.
    NoBits {
        /// The layer, counted from 0.
        layer: usize,
    },
    /// The filter of a commit ends before it begins.
    Falls {
        /// The commit's position.
        pos: Position,
    },
    /// The filter of a commit ends past the end of the chunk `BDAT` of its layer.
    PastEnd {
        /// The commit's position.
        pos: Position,
    },
    /// There are bytes after the last filter of a layer.
    LeftOver {
        /// The layer, counted from 0.
        layer: usize,
    },
    /// The version or the number of hashes is not that of the lowest layer with filters.
    Settings {
        /// The layer, counted from 0.
        layer: usize,
    },
    /// A position that was asked about is none of the graph's.
    NoSuchPosition {
        /// Its number among those that were asked about, counted from 0.
        index: usize,
    },
    /// Memory ran out.
    OutOfMemory,
}

impl ProbeError {
    /// The error that an answer tells of.
    pub(crate) fn of(told: &sys::Probed) -> ProbeError {
        let (layer, pos) = (told.layer as usize, Position(told.position));
        match told.code {
            codes::FILTERS_INDEX_SIZE => ProbeError::IndexSize { layer },
            codes::FILTERS_DATA_SIZE => ProbeError::DataSize { layer },
            codes::FILTERS_VERSION => ProbeError::Version { layer, version: told.number },
            codes::FILTERS_HASHES => ProbeError::Hashes { layer, hashes: told.number },
            codes::FILTERS_NO_BITS => ProbeError::NoBits { layer },
            codes::FILTERS_FALLS => ProbeError::Falls { pos },
            codes::FILTERS_PAST_END => ProbeError::PastEnd { pos },
            codes::FILTERS_LEFT_OVER => ProbeError::LeftOver { layer },
            codes::FILTERS_SETTINGS => ProbeError::Settings { layer },
            codes::NO_SUCH_POSITION => ProbeError::NoSuchPosition { index: told.answered as usize },
            _ => ProbeError::OutOfMemory,
        }
    }
}

impl fmt::Display for ProbeError {
    fn fmt(&self, f: &mut fmt::Formatter<'_>) -> fmt::Result {
        match self {
            ProbeError::IndexSize { layer } => write!(f, "layer {layer}: `BIDX` has not four bytes for each commit"),
            ProbeError::DataSize { layer } => write!(f, "layer {layer}: `BDAT` has fewer than twelve bytes"),
            ProbeError::Version { layer, version } => {
                write!(f, "layer {layer}: the version of the hash is {version}, and neither 1 nor 2")
            }
            ProbeError::Hashes { layer, .. } => {
                write!(f, "layer {layer}: the number of hashes is 0, or more than 65,535")
            }
            ProbeError::NoBits { layer } => write!(f, "layer {layer}: the number of bits per entry is 0"),
            ProbeError::Falls { pos } => {
                write!(f, "the commit at position {pos}: the commit's filter ends before it begins")
            }
            ProbeError::PastEnd { pos } => {
                write!(f, "the commit at position {pos}: the commit's filter ends past the end of `BDAT`")
            }
            ProbeError::LeftOver { layer } => write!(f, "layer {layer}: there are bytes after the last filter"),
            ProbeError::Settings { layer } => write!(
                f,
                "layer {layer}: the version or number of hashes is not that of the lowest layer with filters"
            ),
            ProbeError::NoSuchPosition { index } => {
                write!(f, "number {index} of the positions asked about, counted from 0, is none of the graph's")
            }
            ProbeError::OutOfMemory => f.write_str(OUT_OF_MEMORY),
        }
    }
}

impl std::error::Error for ProbeError {}

impl From<TryReserveError> for ProbeError {
    fn from(_: TryReserveError) -> ProbeError {
        ProbeError::OutOfMemory
    }
}

/// Why the parents of a commit, or the rest of them, cannot be decoded.
#[derive(Clone, Copy, Debug, PartialEq, Eq)]
#[non_exhaustive]
pub enum ParentError {
    /// There is a second parent, and no first one.
    SecondWithoutFirst,
    /// The first parent is given by an index into the extra edge list.
    FirstIsEdgeIndex,
    /// The second parent is given by an index into the extra edge list, and there is none.
    NoEdgeList,
    /// The extra edge list ends before the last parent.
    EdgeOverflow,
    /// There is no memory for them.
    OutOfMemory,
}

impl ParentError {
    /// The error with a number that is one of these.
    #[cold]
    pub(crate) fn of_fault(code: u32) -> ParentError {
        ParentError::of(code).expect("the number of a fault")
    }

    #[inline]
    pub(crate) fn of(code: u32) -> Option<ParentError> {
        match code {
            codes::PARENT_SECOND_WITHOUT_FIRST => Some(ParentError::SecondWithoutFirst),
            codes::PARENT_FIRST_IS_EDGE_INDEX => Some(ParentError::FirstIsEdgeIndex),
            codes::PARENT_NO_EDGE_LIST => Some(ParentError::NoEdgeList),
            codes::PARENT_EDGE_OVERFLOW => Some(ParentError::EdgeOverflow),
            codes::OUT_OF_MEMORY => Some(ParentError::OutOfMemory),
            _ => None,
        }
    }
}

impl fmt::Display for ParentError {
    fn fmt(&self, f: &mut fmt::Formatter<'_>) -> fmt::Result {
        f.write_str(match self {
            ParentError::SecondWithoutFirst => "its record in `CDAT` has a second parent and no first",
            ParentError::FirstIsEdgeIndex => "its first parent field points into `EDGE`",
            ParentError::NoEdgeList => "its second parent field points into `EDGE`, which is not there",
            ParentError::EdgeOverflow => "its list in `EDGE` runs past the end",
            ParentError::OutOfMemory => OUT_OF_MEMORY,
        })
    }
}

impl std::error::Error for ParentError {}

impl From<TryReserveError> for ParentError {
    fn from(_: TryReserveError) -> ParentError {
        ParentError::OutOfMemory
    }
}

/// What differs first between the record of a commit and the bytes of its object.
#[derive(Clone, Copy, Debug, PartialEq, Eq)]
#[non_exhaustive]
pub enum Mismatch {
    /// The commit's id is not that of the bytes.
    OtherContents,
    /// The bytes are those of no commit.
    Unreadable,
    /// The root tree is another.
    Tree,
    /// A parent is another, or only one of both has it.
    Parent {
        /// The number of the first that differs, counted from 0.
        index: u64,
    },
    /// The time is another.
    Time,
}

impl Mismatch {
    /// The mismatch that an answer tells of, if it tells of one.
    pub(crate) fn of(told: &sys::Matched) -> Option<Mismatch> {
        match told.code {
            codes::OBJECT_OTHER_CONTENTS => Some(Mismatch::OtherContents),
            codes::OBJECT_UNREADABLE => Some(Mismatch::Unreadable),
            codes::OBJECT_TREE => Some(Mismatch::Tree),
            codes::OBJECT_PARENT => Some(Mismatch::Parent { index: told.parent }),
            codes::OBJECT_TIME => Some(Mismatch::Time),
            _ => None,
        }
    }
}

impl fmt::Display for Mismatch {
    fn fmt(&self, f: &mut fmt::Formatter<'_>) -> fmt::Result {
        match self {
            Mismatch::OtherContents => f.write_str("the bytes are not those of the commit's id"),
            Mismatch::Unreadable => f.write_str("the bytes are not those of a commit"),
            Mismatch::Tree => f.write_str("the root tree is another one in the commit-graph than in the commit"),
            Mismatch::Parent { index } => {
                write!(f, "the parents are others in the commit-graph than in the commit, from index {index} on")
            }
            Mismatch::Time => f.write_str("the time is another one in the commit-graph than in the commit"),
        }
    }
}

impl std::error::Error for Mismatch {}
