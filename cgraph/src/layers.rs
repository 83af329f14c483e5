//! What `graphtool list` tells of the layers of a commit-graph: which one has a position, and the
//! id that stands there.

use std::fs::{self, File};
use std::io::{BufRead, BufReader};
use std::path::{Path, PathBuf};
use std::process::{Command, Stdio};

use crate::session::Session;

/// What stands at a position.
#[derive(Debug, PartialEq, Eq)]
pub struct AtPosition {
    /// The number of the layer.
    pub layer: usize,
    /// The id of the commit.
    pub commit: String,
}

/// What stands at a position of the whole graph at a path, if the program is there and can list the
/// layers up to it.
pub fn at_position(session: &Session, path: &Path, position: u64) -> Option<AtPosition> {
    let lister = session.lister()?;
    let mut left = position;
    for (layer, file) in files_at(path).iter().enumerate() {
        match commit_in(session, &lister, file, left)? {
            Ok(commit) => return Some(AtPosition { layer, commit }),
            Err(count) => left = left.checked_sub(count)?,
        }
    }
    None
}

/// The files of the layers of the graph at a path, in their order.
fn files_at(path: &Path) -> Vec<PathBuf> {
    let chain = path.join("commit-graph-chain");
    let file = path.join("commit-graph");
    if path.is_file() {
        vec![path.to_owned()]
    } else if chain.is_file() {
        let lines = crate::graph::lines_of(&fs::read(&chain).unwrap_or_default());
        lines.iter().map(|line| path.join(crate::graph::layer_name(line))).collect()
    } else if file.is_file() {
        vec![file]
    } else if path.join("commit-graphs").is_dir() {
        files_at(&path.join("commit-graphs"))
    } else {
        Vec::new()
    }
}

/// The id at a position of one layer, or how many commits it has. There is nothing where it cannot
/// be listed.
fn commit_in(
    session: &Session,
    lister: &Path,
    file: &Path,
    position: u64,
) -> Option<Result<String, u64>> {
    let mut list = Command::new(lister);
    list.arg("list").stdin(File::open(file).ok()?).stdout(Stdio::piped()).stderr(Stdio::null());
    let mut child = session.spawn(&mut list).ok()?;
    let found = child.stdout.take().and_then(|out| commit_among(BufReader::new(out), position));
    session.wait(&mut child);
    found
}

/// The same, of the lines of a listing.
fn commit_among(lines: impl BufRead, position: u64) -> Option<Result<String, u64>> {
    let mut lines = lines.lines().map_while(Result::ok);
    let count = lines.next()?.strip_prefix("layer ")?.rsplit(' ').next()?.parse().ok()?;
    if position >= count {
        return Some(Err(count));
    }
    let mut commits = lines.filter(|line| line.starts_with(|first: char| first.is_ascii_digit()));
    let line = commits.nth(usize::try_from(position).ok()?)?;
    line.split(' ').nth(1).map(|commit| Ok(commit.to_owned()))
}

#[cfg(test)]
mod tests {
    use super::*;

    #[test]
    fn lines_of_a_listing() {
        let listing = "layer sha1 bases 1 commits 2\nbase 00ff\n0 aa - 1 5 -\n1 bb - 1 5 -\n";
        let found = |position| commit_among(listing.as_bytes(), position);
        assert_eq!(found(1), Some(Ok("bb".to_owned())));
        assert_eq!(found(2), Some(Err(2)));
        assert_eq!(commit_among(&b"refused file 1\n"[..], 0), None);
    }
}
