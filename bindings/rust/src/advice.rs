//! What to do about a refusal, as `cg_advice` of `commitgraph.h` says it; where it is known what was opened, that is named.

use crate::{DatesError, Graph, Mismatch, ProbeError, VerifyError, WriteError};
use std::path::{Path, PathBuf};

macro_rules! anew {
    () => {
        "remove the files that were opened (of a chain, its whole folder), and then run `git commit-graph write --reachable` \
         in their repository, with `--changed-paths` if they had filters"
    };
}

pub(crate) const ANEW: &str = anew!();
pub(crate) const MEMORY: &str = "give the program more memory";
pub(crate) const NOT_OPENED: &str = "`git commit-graph write --reachable` makes a commit-graph (not in a shallow repository); if \
     there is one, check permissions, the path (in most repositories `.git/objects/info`), and whether a layer is in another \
     object folder, where it is not looked for";
pub(crate) const READ_FAILED: &str = "try again, and check the disk";
pub(crate) const TOO_MANY_COMMITS: &str = "a commit-graph cannot hold more";
pub(crate) const BASE_COUNT: &str = concat!("open the whole chain, by its folder; else write it anew: ", anew!());
pub(crate) const CHECKSUM: &str = concat!("check the disk, and write it anew: ", anew!());
pub(crate) const FILE_NAME: &str = concat!("give it its name back, or write it anew: ", anew!());
pub(crate) const DATES: &str = concat!(
    "write it anew; where a time is past the year 2514, or a date has a minus sign, Git writes dates that are refused again, and \
     `git -c commitGraph.generationVersion=1 commit-graph write --reachable` writes none; to write it anew, ",
    anew!()
);
pub(crate) const FILTERS: &str =
    concat!("write it anew, with `--changed-paths` after the last command; to write it anew, ", anew!());
pub(crate) const OTHER_CONTENTS: &str = "take the object from another copy of the repository";
pub(crate) const FSCK: &str = "see what `git fsck` says of it";
pub(crate) const OTHER_TIME: &str = concat!(
    "write it anew; where its time is past the year 2514, or its date has a minus sign, Git stores the low bits again, and the \
     commit has to be made anew, with another time; to write it anew, ",
    anew!()
);
pub(crate) const KIND: &str = "hand in ids of one kind";
pub(crate) const NULL_ID: &str = "hand in its id";
pub(crate) const TIME: &str = "make the commit anew, with another time";
pub(crate) const TWICE: &str = "give each commit once";
pub(crate) const BELOW: &str = "give the commits that the graph lacks";
pub(crate) const PARENT: &str = "give all ancestors that the graph lacks";
pub(crate) const CYCLE: &str = "hand in the parents that its object names";
pub(crate) const NOTHING: &str = "see whether `git rev-list --all` lists any";
pub(crate) const NO_IDS: &str = "hand in whole ids";
pub(crate) const TOO_MANY_LAYERS: &str = "write the chain anew as one file";

/// What to do, with the paths of the files that were opened, where they are known.
pub(crate) fn naming(advice: &str, opened: &[&Path]) -> String {
    let mut removed: Vec<_> = opened.iter().filter(|path| !path.as_os_str().is_empty()).map(|path| whole(path)).collect();
    removed.dedup();
    if removed.is_empty() {
        return advice.to_owned();
    }
    let after = ANEW.find(", and then run ").unwrap_or(ANEW.len());
    advice.replace(ANEW, &format!("remove {}{}", removed.join(" and "), &ANEW[after..]))
}

/// What a file is a part of: of the chain in its folder, where it has the name of a part of one; else of nothing more.
fn whole(path: &Path) -> String {
    let name = path.file_name().unwrap_or_default().to_string_lossy();
    if name == "commit-graph-chain" || name.starts_with("graph-") && name.ends_with(".graph") {
        let folder = path.parent().filter(|folder| !folder.as_os_str().is_empty()).unwrap_or(Path::new("."));
        return format!("the folder `{}`", folder.display());
    }
    format!("`{}`", path.display())
}

impl Graph {
    /// The advice of an error that this graph is the cause of, such as [`DatesError::advice`], with the paths of the files that were
    /// opened.
    #[must_use]
    pub fn advice_with_paths(&self, advice: &str) -> String {
        naming(advice, &self.paths.iter().map(PathBuf::as_path).collect::<Vec<_>>())
    }
}

impl<E> VerifyError<E> {
    /// What to do, with the commands to type at the top of the repository; empty where that is not known.
    #[must_use]
    pub fn advice(&self) -> &'static str {
        match self {
            VerifyError::Fault(fault) => fault.advice(),
            VerifyError::Processor { .. } => "",
            VerifyError::OutOfMemory => MEMORY,
        }
    }
}

impl DatesError {
    /// What to do, with the commands to type at the top of the repository.
    #[must_use]
    pub fn advice(&self) -> &'static str {
        match self {
            DatesError::Date { .. } => DATES,
            DatesError::OutOfMemory => MEMORY,
            _ => ANEW,
        }
    }
}

impl ProbeError {
    /// What to do, with the commands to type at the top of the repository; empty where that is not known.
    #[must_use]
    pub fn advice(&self) -> &'static str {
        match self {
            ProbeError::NoSuchPosition { .. } => "",
            ProbeError::OutOfMemory => MEMORY,
            _ => FILTERS,
        }
    }
}

impl Mismatch {
    /// What to do, with the commands to type at the top of the repository.
    #[must_use]
    pub fn advice(&self) -> &'static str {
        match self {
            Mismatch::OtherContents => OTHER_CONTENTS,
            Mismatch::Unreadable => FSCK,
            Mismatch::Tree | Mismatch::Parent { .. } => ANEW,
            Mismatch::Time => OTHER_TIME,
        }
    }
}

impl WriteError {
    /// What to do, with the commands to type at the top of the repository; empty where that is not known.
    #[must_use]
    pub fn advice(&self) -> &'static str {
        match self {
            WriteError::NoIds { .. } => NO_IDS,
            WriteError::Kind { .. } => KIND,
            WriteError::NullId { .. } => NULL_ID,
            WriteError::NullTree { .. } => FSCK,
            WriteError::Time { .. } => TIME,
            WriteError::Twice { .. } => TWICE,
            WriteError::Below { .. } => BELOW,
            WriteError::Parent { .. } => PARENT,
            WriteError::Nothing => NOTHING,
            WriteError::Dates(error) => error.advice(),
            WriteError::Cycle { .. } => CYCLE,
            WriteError::TooManyLayers => TOO_MANY_LAYERS,
            WriteError::TooManyCommits | WriteError::TooManyEdges => "",
            WriteError::OutOfMemory => MEMORY,
        }
    }
}
