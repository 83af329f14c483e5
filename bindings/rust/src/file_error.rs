//! Why bytes are no layer, and layers no graph.

use crate::codes;
use std::fmt;

/// Why the bytes of a layer are refused: the first that holds.
#[derive(Clone, Copy, Debug, PartialEq, Eq)]
#[non_exhaustive]
pub enum FileError {
    /// The file has fewer than 1100 bytes.
    TooShort,
    /// The bytes do not begin with `CGPH`.
    Signature,
    /// Another version than 1.
    Version,
    /// Another kind of hash than SHA-1 and SHA-256.
    Hash,
    /// `BASE` ends within an id.
    BaseSize,
    /// `BASE` has another number of ids than the header says.
    BaseCount,
    /// There is no `CDAT`.
    NoCommitData,
    /// `CDAT` ends within a record.
    CommitDataSize,
    /// There is no `OIDF`.
    NoFan,
    /// `OIDF` does not have 256 numbers.
    FanSize,
    /// There is no `OIDL`.
    NoIds,
    /// `OIDL` ends within an id.
    IdsSize,
    /// `EDGE` has more than 4,294,967,294 words.
    TooManyEdges,
    /// What follows the chunks is not as long as a checksum.
    Trailer,
    /// The header counts base ids, and there is no `BASE`.
    BaseMissing,
    /// A number of `OIDF` is less than the one before it.
    FanFalls,
    /// `OIDL` has another number of ids than `OIDF` says.
    IdCount,
    /// `CDAT` has another number of records than `OIDF` says.
    RecordCount,
    /// The number of chunks is 0.
    NoChunks,
    /// The table of chunks passes the end of the file.
    TableTooSmall,
    /// An entry of the table before the last has the id 0.
    EarlyEnd,
    /// Two chunks have one id.
    DuplicateChunk,
    /// A chunk begins past the end of the file.
    ChunkOutOfFile,
    /// A chunk ends before it begins.
    ChunkFalls,
    /// The table of chunks does not end with the id 0.
    NoEnd,
}

impl FileError {
    /// The error with a number, if it is one of these.
    pub(crate) fn of(code: u32) -> Option<FileError> {
        Some(match code {
            codes::FILE_TOO_SHORT => FileError::TooShort,
            codes::FILE_SIGNATURE => FileError::Signature,
            codes::FILE_VERSION => FileError::Version,
            codes::FILE_HASH => FileError::Hash,
            codes::FILE_BASE_SIZE => FileError::BaseSize,
            codes::FILE_BASE_COUNT => FileError::BaseCount,
            codes::FILE_NO_COMMIT_DATA => FileError::NoCommitData,
            codes::FILE_COMMIT_DATA_SIZE => FileError::CommitDataSize,
            codes::FILE_NO_FAN => FileError::NoFan,
            codes::FILE_FAN_SIZE => FileError::FanSize,
            codes::FILE_NO_IDS => FileError::NoIds,
            codes::FILE_IDS_SIZE => FileError::IdsSize,
            codes::FILE_TOO_MANY_EDGES => FileError::TooManyEdges,
            codes::FILE_TRAILER => FileError::Trailer,
            codes::FILE_BASE_MISSING => FileError::BaseMissing,
            codes::FILE_FAN_FALLS => FileError::FanFalls,
            codes::FILE_ID_COUNT => FileError::IdCount,
            codes::FILE_RECORD_COUNT => FileError::RecordCount,
            codes::CHUNK_NONE => FileError::NoChunks,
            codes::CHUNK_TABLE_TOO_SMALL => FileError::TableTooSmall,
            codes::CHUNK_EARLY_END => FileError::EarlyEnd,
            codes::CHUNK_DUPLICATE => FileError::DuplicateChunk,
            codes::CHUNK_OUT_OF_FILE => FileError::ChunkOutOfFile,
            codes::CHUNK_FALLING => FileError::ChunkFalls,
            codes::CHUNK_NO_END => FileError::NoEnd,
            _ => return None,
        })
    }
}

impl fmt::Display for FileError {
    fn fmt(&self, f: &mut fmt::Formatter<'_>) -> fmt::Result {
        f.write_str(match self {
            FileError::TooShort => "the file has fewer than 1100 bytes: often it is truncated",
            FileError::Signature => "the bytes do not begin with `CGPH`",
            FileError::Version => "another version than 1",
            FileError::Hash => "another kind of hash than SHA-1 (1) and SHA-256 (2)",
            FileError::BaseSize => "`BASE` ends within an id",
            FileError::BaseCount => "`BASE` has another number of ids than the header says",
            FileError::NoCommitData => "there is no `CDAT`",
            FileError::CommitDataSize => "`CDAT` ends within a record",
            FileError::NoFan => "there is no `OIDF`",
            FileError::FanSize => "`OIDF` does not have 256 numbers, 1024 bytes",
            FileError::NoIds => "there is no `OIDL`",
            FileError::IdsSize => "`OIDL` ends within an id",
            FileError::TooManyEdges => "`EDGE` has more than 4,294,967,294 words",
            FileError::Trailer => "what follows the chunks is not as long as a checksum: often a truncated file",
            FileError::BaseMissing => "the header counts base ids, and there is no `BASE`",
            FileError::FanFalls => "a number of `OIDF` is less than the one before it",
            FileError::IdCount => "`OIDL` has another number of ids than `OIDF` says",
            FileError::RecordCount => "`CDAT` has another number of records than `OIDF` says",
            FileError::NoChunks => "the number of chunks is 0",
            FileError::TableTooSmall => "the table of chunks passes the end of the file",
            FileError::EarlyEnd => "an entry before the last has the id 0",
            FileError::DuplicateChunk => "two chunks have one id",
            FileError::ChunkOutOfFile => "a chunk begins past the end of the file: often a truncated file",
            FileError::ChunkFalls => "a chunk ends before it begins",
            FileError::NoEnd => "the table does not end with the id 0",
        })
    }
}

impl std::error::Error for FileError {}

/// Why layers make no graph: the first that holds.
#[derive(Clone, Copy, Debug, PartialEq, Eq)]
#[non_exhaustive]
pub enum GraphError {
    /// There is no layer.
    NoFiles,
    /// There are more than 1,879,048,191 commits.
    TooManyCommits,
    /// Layers have different kinds of hash.
    HashMismatch {
        /// The first layer of another kind than the one below it, counted from 0.
        layer: usize,
    },
}

impl GraphError {
    /// The error with a number, if it is one of these.
    pub(crate) fn of(code: u32, layer: usize) -> Option<GraphError> {
        Some(match code {
            codes::GRAPH_NO_FILES => GraphError::NoFiles,
            codes::GRAPH_TOO_MANY_COMMITS => GraphError::TooManyCommits,
            codes::GRAPH_HASH_MISMATCH => GraphError::HashMismatch { layer },
            _ => return None,
        })
    }
}

impl fmt::Display for GraphError {
    fn fmt(&self, f: &mut fmt::Formatter<'_>) -> fmt::Result {
        f.write_str(match self {
            GraphError::NoFiles => "the chain file names no layer",
            GraphError::TooManyCommits => "there are more than 1,879,048,191 commits",
            GraphError::HashMismatch { .. } => "layers have different kinds of hash",
        })
    }
}

impl std::error::Error for GraphError {}
