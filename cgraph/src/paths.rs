//! Paths: what has one, and where it leads.

use std::fs;
use std::os::unix::fs::MetadataExt;
use std::path::{Path, PathBuf};

use crate::system::{may, Right};

/// Whether something has a path, be it a link to nothing.
pub fn is_there(path: &Path) -> bool {
    fs::symlink_metadata(path).is_ok()
}

/// The path of a folder from the root on, if it may be entered.
pub fn from_root(folder: &Path) -> Option<PathBuf> {
    let path = if folder.as_os_str().is_empty() { Path::new(".") } else { folder };
    let whole = fs::canonicalize(path).ok()?;
    (whole.is_dir() && may(&whole, Right::Enter)).then_some(whole)
}

/// Whether two paths lead to the same file or folder.
pub fn same_file(one: &Path, other: &Path) -> bool {
    let identity = |path: &Path| path.metadata().ok().map(|file| (file.dev(), file.ino()));
    identity(one).is_some() && identity(one) == identity(other)
}

/// The path to which a path leads, without links. What it ends with may be missing.
pub fn real_path(path: &Path) -> Option<PathBuf> {
    const MOST_LINKS: usize = 40;
    let mut path = path.to_owned();
    for _ in 0..MOST_LINKS {
        if let Ok(whole) = path.canonicalize() {
            return Some(whole);
        }
        let folder = path.parent()?.to_owned();
        match path.read_link() {
            Ok(target) => path = folder.join(target),
            Err(_) => return Some(folder.canonicalize().ok()?.join(path.file_name()?)),
        }
    }
    None
}

/// Why a file cannot be read, if it cannot.
pub fn obstacle(path: &Path) -> Option<&'static str> {
    if !path.exists() {
        return Some(match path.is_symlink() {
            true => "is a link to what is not there",
            false => "is missing",
        });
    }
    if path.is_dir() {
        return Some("is a folder, not a file");
    }
    if !path.is_file() {
        return Some("is not a file");
    }
    (!may(path, Right::Read)).then_some("may not be read (permission denied)")
}

#[cfg(test)]
mod tests {
    use super::*;

    #[test]
    fn what_a_path_ends_with_may_be_missing() {
        let folder = std::env::temp_dir().canonicalize().unwrap();
        assert_eq!(
            real_path(&folder.join("nothing of this name")),
            Some(folder.join("nothing of this name"))
        );
        assert_eq!(real_path(&folder.join("nothing/of this name")), None);
        assert!(same_file(&folder, &folder.join(".")));
        assert!(!same_file(&folder.join("nothing"), &folder.join("nothing")));
    }

    #[test]
    fn obstacles() {
        let folder = std::env::temp_dir();
        assert_eq!(obstacle(&folder), Some("is a folder, not a file"));
        assert_eq!(obstacle(&folder.join("nothing of this name")), Some("is missing"));
        assert_eq!(obstacle(Path::new("/dev/null")), Some("is not a file"));
    }
}
