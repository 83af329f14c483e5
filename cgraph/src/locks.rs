//! The locks under which a commit-graph is written, and the rights of its files.
//!
//! The locks are Git's: files with `.lock` behind the name of what is written, which only one
//! process can make.

use std::ffi::OsString;
use std::fs::{self, File, OpenOptions, Permissions};
use std::io;
use std::os::unix::fs::{OpenOptionsExt, PermissionsExt};
use std::path::{Path, PathBuf};

use crate::guard::Guard;
use crate::paths::is_there;
use crate::session::Session;

/// The path of the lock of a file.
pub fn lock_of(path: &Path) -> PathBuf {
    let mut name = OsString::from(path);
    name.push(".lock");
    name.into()
}

/// A lock that is held. It may only be read from then on, as Git's.
pub struct Lock {
    pub path: PathBuf,
    pub file: File,
}

impl Lock {
    /// Makes a lock, which must not be there. No signal comes between.
    fn take(guard: &Guard, path: &Path) -> io::Result<Lock> {
        const READ_ONLY: u32 = 0o444;
        let mut made = guard.moment();
        let file = OpenOptions::new().write(true).create_new(true).mode(READ_ONLY).open(path)?;
        made.add_file(path);
        Ok(Lock { path: path.to_owned(), file })
    }

    /// Removes it, unless it has another name by now.
    pub fn give_back(&self, guard: &Guard) {
        let mut made = guard.moment();
        if made.forget_file(&self.path) {
            let _ = fs::remove_file(&self.path);
        }
    }
}

/// Why locks could not be taken.
#[derive(Debug, PartialEq, Eq)]
pub enum Refusal {
    /// Others hold these.
    Held(Vec<PathBuf>),
    /// This one could not be made.
    Unmade(PathBuf),
}

/// Takes locks, all of them or none.
pub fn take_all(guard: &Guard, paths: &[PathBuf]) -> Result<Vec<Lock>, Refusal> {
    let held = |paths: &[PathBuf]| -> Vec<PathBuf> {
        paths.iter().filter(|path| is_there(path)).cloned().collect()
    };
    let others = held(paths);
    if !others.is_empty() {
        return Err(Refusal::Held(others));
    }
    let mut locks = Vec::new();
    for path in paths {
        match take_one(|| Lock::take(guard, path), || is_there(path)) {
            Some(Ok(lock)) => locks.push(lock),
            other => {
                locks.iter().for_each(|lock: &Lock| lock.give_back(guard));
                return Err(match other {
                    None => Refusal::Held(vec![path.clone()]),
                    _ => Refusal::Unmade(path.clone()),
                });
            }
        }
    }
    Ok(locks)
}

/// Takes a lock, once more where whoever held it has given it back meanwhile. There is nothing
/// where it is there.
fn take_one<T>(
    mut take: impl FnMut() -> io::Result<T>,
    mut is_held: impl FnMut() -> bool,
) -> Option<io::Result<T>> {
    for _ in 0..2 {
        if let Ok(lock) = take() {
            return Some(Ok(lock));
        }
        if is_held() {
            return None;
        }
    }
    Some(Err(io::ErrorKind::Other.into()))
}

/// The rights that core.sharedRepository asks for.
#[derive(Clone, Copy, Debug, PartialEq, Eq)]
pub enum Shared {
    /// Those of the process.
    No,
    /// These bits besides, of a file and of a folder.
    Besides(u32, u32),
    /// These bits, of a file and of a folder.
    Exactly(u32, u32),
}

impl Shared {
    /// What Git is told in this repository.
    pub fn find(session: &Session) -> Self {
        let mut git = session.git();
        let line = session.line(git.args(["config", "core.sharedRepository"]));
        line.map_or(Shared::No, |value| Shared::of(&value))
    }

    fn of(value: &str) -> Self {
        let is_octal = value.bytes().all(|byte| (b'0'..=b'7').contains(&byte));
        match value {
            "umask" | "0" | "false" | "no" | "off" | "" => Shared::No,
            "all" | "world" | "everybody" | "2" | "02" | "002" => Shared::Besides(0o444, 0o2775),
            _ if is_octal && value.len() > 1 => {
                let rights = u32::from_str_radix(value, 8).unwrap_or(0) & 0o666;
                let read = rights & 0o444;
                let group = if rights & 0o060 == 0 { 0 } else { 0o2000 };
                Shared::Exactly(read, rights | read >> 2 | group)
            }
            _ => Shared::Besides(0o440, 0o2770),
        }
    }

    /// Gives a file or a folder these rights: a file may only be read.
    pub fn give(self, path: &Path) -> io::Result<()> {
        let mode = path.metadata()?.permissions().mode();
        let chosen = |file, folder| if path.is_dir() { folder } else { file };
        let mode = match self {
            Shared::No => return Ok(()),
            Shared::Besides(file, folder) => mode | chosen(file, folder),
            // The bit by which files get the group of a folder stays.
            Shared::Exactly(file, folder) => {
                mode & 0o6000 & chosen(0, 0o6000) | chosen(file, folder)
            }
        };
        fs::set_permissions(path, Permissions::from_mode(mode & 0o7777))
    }
}

#[cfg(test)]
mod tests {
    use super::*;

    #[test]
    fn rights_that_are_shared() {
        assert_eq!(Shared::of("umask"), Shared::No);
        assert_eq!(Shared::of("group"), Shared::Besides(0o440, 0o2770));
        assert_eq!(Shared::of("1"), Shared::Besides(0o440, 0o2770));
        assert_eq!(Shared::of("all"), Shared::Besides(0o444, 0o2775));
        assert_eq!(Shared::of("0640"), Shared::Exactly(0o440, 0o2750));
        assert_eq!(Shared::of("0660"), Shared::Exactly(0o440, 0o2770));
        assert_eq!(Shared::of("0600"), Shared::Exactly(0o400, 0o700));
    }

    /// A lock that is given back as it is seen is named, and one that is given back as it is taken
    /// is taken.
    #[test]
    fn a_lock_that_is_given_back() {
        let folder = std::env::temp_dir().join(format!("locks.{}", std::process::id()));
        fs::create_dir(&folder).unwrap();
        let (guard, paths) = (Guard::default(), [folder.join("a.lock"), folder.join("b.lock")]);
        File::create(&paths[1]).unwrap();
        assert_eq!(take_all(&guard, &paths).err(), Some(Refusal::Held(vec![paths[1].clone()])));
        fs::remove_file(&paths[1]).unwrap();
        let locks = take_all(&guard, &paths).unwrap_or_default();
        assert_eq!(locks.len(), 2);
        assert_eq!(fs::metadata(&paths[0]).unwrap().permissions().mode() & 0o222, 0);
        locks.iter().for_each(|lock| lock.give_back(&guard));
        assert!(fs::read_dir(&folder).unwrap().next().is_none());
        let gone = [folder.join("none/a.lock")];
        assert_eq!(take_all(&guard, &gone).err(), Some(Refusal::Unmade(gone[0].clone())));
        fs::remove_dir(&folder).unwrap();
    }

    #[test]
    fn a_lock_is_tried_once_more_where_nobody_holds_it() {
        let mut tries = [false, true].into_iter();
        let take =
            || tries.next().filter(|&works| works).ok_or(io::ErrorKind::AlreadyExists.into());
        assert!(matches!(take_one(take, || false), Some(Ok(true))));
        let failing = || Err::<(), _>(io::ErrorKind::AlreadyExists.into());
        assert!(take_one(failing, || true).is_none());
        assert!(matches!(take_one(failing, || false), Some(Err(_))));
    }
}
