//! Whether a commit-graph may be written, and where: what keeps `git cgraph write` from that before
//! it begins.

use std::fs::{self, DirBuilder};
use std::path::{Path, PathBuf};

use crate::cures::{git_with, is_own, Links};
use crate::error::Error;
use crate::graph::Places;
use crate::locks::{lock_of, take_all, Lock, Refusal, Shared};
use crate::paths::{real_path, same_file};
use crate::question::Question;
use crate::repository::quarantine;
use crate::system::{may, Right};
use crate::text::{quoted, shown};

/// Why nothing is written.
pub enum Halt {
    /// Something failed.
    Failed(Box<Failure>),
    /// A program refused something, by this line.
    Refused(String),
    /// Nothing has to be written, for this reason.
    Nothing(&'static str),
}

/// A failure: the error, what is known of it, and what may be done.
pub struct Failure {
    pub status: i32,
    pub error: Error,
    pub place: String,
    pub advice: String,
    pub cure: Vec<String>,
}

impl Halt {
    /// A failure.
    pub fn failed(error: Error, place: String, advice: String, cure: Vec<String>) -> Halt {
        Halt::Failed(Box::new(Failure { status: 128, error, place, advice, cure }))
    }

    /// The one by which a commit-graph could not be written.
    pub fn unwritten(place: String, advice: &str, cure: Vec<String>) -> Halt {
        Halt::failed(Error::NotWritten, place, advice.to_owned(), cure)
    }

    /// A failure of which no more is known than the error.
    pub fn plain(status: i32, error: Error) -> Halt {
        let (place, advice, cure) = Default::default();
        Halt::Failed(Box::new(Failure { status, error, place, advice, cure }))
    }
}

/// Where a commit-graph is written.
pub struct Target {
    /// The object folder.
    pub folder: PathBuf,
    /// The path of the one file, and of the chain file: what they lead to, where they are links.
    pub single: PathBuf,
    pub chain: PathBuf,
    pub shared: Shared,
}

impl Target {
    /// The files of an object folder in which a commit-graph may be written. Their folders are
    /// made.
    pub fn find(question: &Question) -> Result<Target, Halt> {
        let folder = question.named().unwrap_or(&question.repository.objects).to_owned();
        look_for_quarantine(&folder)?;
        look_for_use(question)?;
        look_for_folder(question)?;
        look_for_strays(question, &folder)?;
        let info = folder.join("info");
        let mut target = Target {
            single: info.join("commit-graph"),
            chain: info.join("commit-graphs/commit-graph-chain"),
            folder,
            shared: Shared::find(question.session),
        };
        target.make_folder(&info)?;
        if question.options().split {
            target.make_folder(&info.join("commit-graphs"))?;
        }
        for path in [&target.single, &target.chain] {
            if path.is_dir() {
                return Err(target.refuse_folder(question, path));
            }
        }
        for path in [&mut target.single, &mut target.chain] {
            if path.is_symlink() {
                *path = real_path(path).unwrap_or_default();
            }
        }
        Ok(target)
    }

    /// The folder of the chain.
    pub fn chains(&self) -> &Path {
        self.chain.parent().unwrap_or(Path::new("/"))
    }

    /// Whether what is written belongs to this repository.
    pub fn is_own(&self, question: &Question) -> bool {
        is_own(question, &self.folder.join("info")) && is_own(question, &self.single)
    }

    /// A folder, or a link to one, stands where a file has to be.
    fn refuse_folder(&self, question: &Question, path: &Path) -> Halt {
        if !is_own(question, &self.folder.join("info")) {
            let advice = format!("ask whoever keeps '{}' to remove it", shown(&self.folder));
            let place = format!("'{}' is a folder, not a file", shown(path));
            Halt::unwritten(place, &advice, Vec::new())
        } else if path.is_symlink() {
            let place = format!("'{}' is a link to a folder, and not a file", shown(path));
            let cure = vec![format!("rm -f {}", quoted(path))];
            Halt::unwritten(place, "remove the link, and ask again", cure)
        } else {
            let place = format!("'{}' is a folder, not a file", shown(path));
            let cure = vec![format!("rm -rf {}", quoted(path))];
            Halt::unwritten(place, "remove the folder with all that it has, and ask again", cure)
        }
    }

    /// Makes a folder, if there is none, with the rights that Git gives it.
    fn make_folder(&self, path: &Path) -> Result<(), Halt> {
        if path.is_dir() {
            return Ok(());
        }
        if DirBuilder::new().create(path).is_err() && !path.is_dir() {
            return Err(refuse_making(path));
        }
        let _ = self.shared.give(path);
        Ok(())
    }

    /// Takes the lock of the file, and that of the chain where its folder is there: whoever keeps
    /// to them writes nothing meanwhile.
    pub fn lock(&self, question: &Question) -> Result<(Lock, Option<Lock>), Halt> {
        let mut paths = vec![lock_of(&self.single)];
        if self.chains().is_dir() {
            paths.push(lock_of(&self.chain));
        }
        match take_all(&question.session.guard, &paths) {
            Ok(locks) => {
                let mut locks = locks.into_iter();
                let single = locks.next().ok_or_else(|| refuse_making(&paths[0]))?;
                Ok((single, locks.next()))
            }
            Err(Refusal::Held(others)) => Err(self.refuse_locked(question, &others)),
            Err(Refusal::Unmade(path)) => Err(refuse_making(&path)),
        }
    }

    /// Others hold locks.
    fn refuse_locked(&self, question: &Question, others: &[PathBuf]) -> Halt {
        let words = others.iter().map(quoted).collect::<Vec<_>>().join(" ");
        let place = format!("the lock is {words}");
        if !self.is_own(question) {
            let advice = format!(
                "wait for whoever writes it. If nobody does, ask whoever keeps '{}' to remove the \
                 lock",
                shown(&self.folder)
            );
            return Halt::failed(Error::Locked, place, advice, Vec::new());
        }
        let advice = "wait for whoever writes it. If nobody does, a process was killed while it \
                      did: remove the lock, and ask again";
        let cure = vec![format!("rm -f {words}")];
        Halt::failed(Error::Locked, place, advice.to_owned(), cure)
    }
}

/// A file or a folder cannot be made.
pub fn refuse_making(path: &Path) -> Halt {
    let folder = path.parent().unwrap_or(Path::new("/"));
    if !folder.is_dir() || may(folder, Right::Write) {
        return Halt::unwritten(format!("'{}' cannot be made", shown(path)), "", Vec::new());
    }
    Halt::unwritten(
        format!("the folder '{}' may not be written", shown(folder)),
        "see to it that whoever runs this may write there, and ask again",
        vec![format!("ls -ld {}", quoted(folder))],
    )
}

/// In a hook that runs before new objects are taken, they are in a folder that may be thrown away.
fn look_for_quarantine(folder: &Path) -> Result<(), Halt> {
    if !quarantine().is_some_and(|path| same_file(folder, &path)) {
        return Ok(());
    }
    let place = format!(
        "in this hook new objects are not taken yet, and lie in '{}', which may be thrown away",
        shown(folder)
    );
    let advice = "write it in a post-receive hook, which runs when they are taken";
    Err(Halt::unwritten(place, advice, Vec::new()))
}

/// Whether Git uses a commit-graph here. Else it writes none.
fn look_for_use(question: &Question) -> Result<(), Halt> {
    let repository = &question.repository;
    let keeps_replacements =
        std::env::var_os("GIT_NO_REPLACE_OBJECTS").is_some_and(|value| !value.is_empty());
    let (reason, advice, words, before) = if question.is_unused() {
        let reason = "core.commitGraph is false".to_owned();
        (reason, "write it all the same", "-c core.commitGraph=true", None)
    } else if repository.is_shallow {
        let reason = "this repository is shallow".to_owned();
        (reason, "fetch the whole history, and write it", "", Some("fetch --unshallow"))
    } else if repository.has_grafts() {
        let reason = format!("'{}' gives commits other parents", shown(repository.grafts()));
        let before = Some("replace --convert-graft-file");
        (reason, "make replacements of them, and write it", "--no-replace-objects", before)
    } else if !keeps_replacements && question.has_replacements() {
        let reason = "some commits are replaced (git replace)".to_owned();
        (reason, "write it without the replacements", "", None)
    } else {
        return Ok(());
    };
    let links = Links::find(question);
    let mut cure: Vec<String> =
        before.map(|words| format!("{} {words}", question.git_here())).into_iter().collect();
    cure.extend(links.removed(question));
    cure.push(writes_by_cgraph(question, words));
    let place = format!("the reason is that {reason}");
    Err(Halt::failed(Error::Unused, place, links.told(advice), cure))
}

/// The command by which this one writes, with some words after `git`.
fn writes_by_cgraph(question: &Question, words: &str) -> String {
    let split = if question.options().split { " --split" } else { "" };
    format!("{} cgraph write{split}", git_with(question, words))
}

/// Whether the folder that is named is one of those in which Git looks for objects.
fn look_for_folder(question: &Question) -> Result<(), Halt> {
    let Some(named) = question.named() else { return Ok(()) };
    let places = Places::find(question.session, &question.repository, None);
    if places.folders.iter().any(|place| same_file(place, named)) {
        return Ok(());
    }
    let links = Links::find(question);
    let place = format!("'{}' is none of the object folders of this repository", shown(named));
    let cure = [links.removed(question), vec![writes_by_cgraph(question, "")]].concat();
    Err(Halt::unwritten(place, "write to this repository's own", cure))
}

/// Whether what is written stays in the repository for which it is written. Git follows a link that
/// leads elsewhere, where the commit-graph of another repository may be.
fn look_for_strays(question: &Question, folder: &Path) -> Result<(), Halt> {
    if same_file(folder, &question.repository.own) {
        let links = Links::find(question);
        if links.is_empty() {
            return Ok(());
        }
        let (astray, stray) = (shown(&links.astray), shown(&links.stray));
        let place = format!("'{astray}' leads to '{stray}', which is not in this repository");
        let advice = "remove the link, and write a commit-graph of this repository's own";
        let cure = [links.removed(question), vec![writes_by_cgraph(question, "")]].concat();
        return Err(Halt::unwritten(place, advice, cure));
    }
    let around = real_path(&folder.join("..")).unwrap_or_default();
    let names = [
        "info",
        "info/commit-graph",
        "info/commit-graphs",
        "info/commit-graphs/commit-graph-chain",
    ];
    for path in names.map(|name| folder.join(name)).iter().filter(|path| path.is_symlink()) {
        let stray = real_path(path).or_else(|| fs::read_link(path).ok()).unwrap_or_default();
        if stray == around || !stray.starts_with(&around) {
            let (path, stray) = (shown(path), shown(&stray));
            let place = format!("'{path}' leads to '{stray}', which is not in its repository");
            let advice = format!("ask whoever keeps '{}' to remove this link", shown(folder));
            return Err(Halt::unwritten(place, &advice, Vec::new()));
        }
    }
    Ok(())
}
