//! What Git says of the repository, in one call, with the ids of the commits that are named.

use std::env;
use std::ffi::{OsStr, OsString};
use std::fs;
use std::os::unix::ffi::{OsStrExt, OsStringExt};
use std::path::{Path, PathBuf};
use std::process::Stdio;

use crate::error::Error;
use crate::paths::from_root;
use crate::session::Session;
use crate::text::word_of;

/// A kind of ids.
#[derive(Clone, Copy, Debug, PartialEq, Eq)]
pub enum Hash {
    Sha1,
    Sha256,
}

impl Hash {
    /// The name in sentences.
    pub fn name(self) -> &'static str {
        match self {
            Hash::Sha1 => "SHA-1",
            Hash::Sha256 => "SHA-256",
        }
    }

    /// The bytes of an id, and of a checksum.
    pub fn size(self) -> usize {
        match self {
            Hash::Sha1 => 20,
            Hash::Sha256 => 32,
        }
    }
}

/// A repository.
#[derive(Clone, Debug)]
pub struct Repository {
    /// Its object folder. In a hook before new objects are taken, that is a folder which may be
    /// thrown away.
    pub objects: PathBuf,
    /// The object folder that it keeps.
    pub own: PathBuf,
    /// The folder that its worktrees share.
    pub common: PathBuf,
    pub hash: Hash,
    pub is_shallow: bool,
}

/// A repository, and the ids of revisions where Git answers with just one for each.
pub struct Found {
    pub repository: Repository,
    pub ids: Option<Vec<String>>,
}

/// What Git says, taken apart.
#[derive(Debug, PartialEq, Eq)]
struct Told {
    info: PathBuf,
    hash: Hash,
    is_shallow: bool,
    common: PathBuf,
}

impl Repository {
    /// Looks for the repository of this folder, and for the ids of some revisions.
    pub fn find(session: &Session, revisions: &[OsString]) -> Result<Found, Error> {
        let (told, ids) = match named(session, revisions) {
            Some((told, ids)) => (told, Some(ids)),
            None => {
                let (status, out) = session.output(look_up(session).stdout(Stdio::piped()));
                let told = (status == 0).then(|| take_apart(trimmed(&out))).flatten();
                let none = revisions.is_empty().then(Vec::new);
                (told.ok_or(Error::NoRepository)?, none)
            }
        };
        let common = from_root(&told.common).ok_or(Error::Closed(told.common))?;
        let objects = match told.info.parent() {
            Some(folder) if told.info != Path::new("info") => {
                from_root(folder).ok_or_else(|| Error::Closed(folder.to_owned()))?
            }
            _ => env::current_dir().map_err(|_| Error::NoRepository)?,
        };
        let own = match quarantine() {
            Some(_) => common.join("objects"),
            None => objects.clone(),
        };
        let Told { hash, is_shallow, .. } = told;
        Ok(Found { repository: Repository { objects, own, common, hash, is_shallow }, ids })
    }

    /// Whether grafts give commits other parents.
    pub fn has_grafts(&self) -> bool {
        fs::metadata(self.grafts()).is_ok_and(|file| file.len() > 0)
    }

    /// The file of grafts.
    pub fn grafts(&self) -> PathBuf {
        self.common.join("info/grafts")
    }

    /// Whether commits have replacements, which Git uses and the commit-graph does not have. Git is
    /// asked only where some may be.
    pub fn has_replacements(&self, session: &Session) -> bool {
        let packed = || fs::read(self.common.join("packed-refs")).unwrap_or_default();
        let may_be = self.common.join("refs/replace").is_dir()
            || self.common.join("reftable").is_dir()
            || contains(&packed(), b"refs/replace/");
        let mut git = session.git();
        may_be
            && session
                .line(git.args(["for-each-ref", "--count=1", "refs/replace"]))
                .is_some_and(|line| !line.is_empty())
    }
}

/// The folder in which a hook finds new objects before they are taken.
pub fn quarantine() -> Option<PathBuf> {
    env::var_os("GIT_QUARANTINE_PATH").filter(|path| !path.is_empty()).map(PathBuf::from)
}

/// Whether some bytes have others in them.
pub fn contains(bytes: &[u8], wanted: &[u8]) -> bool {
    bytes.windows(wanted.len()).any(|part| part == wanted)
}

/// The call of Git that tells where the repository is.
fn look_up(session: &Session) -> std::process::Command {
    let mut git = session.plain_git();
    git.args(["rev-parse", "--git-path", "objects/info", "--show-object-format"]);
    git.args(["--is-shallow-repository", "--git-common-dir"]);
    git
}

/// The word by which Git gives the id of the commit that a revision names.
pub fn commit_word(revision: &OsStr) -> OsString {
    let mut word = revision.to_owned();
    if !revision.as_bytes().starts_with(b":/") {
        word.push("^{commit}");
    }
    word
}

/// The same call with revisions, whose ids come behind. There is nothing where Git does not answer
/// with just one for each.
fn named(session: &Session, revisions: &[OsString]) -> Option<(Told, Vec<String>)> {
    if revisions.is_empty() {
        return None;
    }
    let mut git = look_up(session);
    git.args(revisions.iter().map(|revision| commit_word(revision))).stderr(Stdio::null());
    let (status, out) = session.output(&mut git);
    if status != 0 {
        return None;
    }
    let (rest, ids) = take_ids(trimmed(&out), revisions.len())?;
    Some((take_apart(rest)?, ids))
}

fn trimmed(out: &[u8]) -> &[u8] {
    out.strip_suffix(b"\n").unwrap_or(out)
}

/// So many ids from the end of lines, and the lines before them: there is nothing where these lines
/// end with a further id.
fn take_ids(lines: &[u8], count: usize) -> Option<(&[u8], Vec<String>)> {
    let (mut rest, mut ids) = (lines, Vec::new());
    for _ in 0..count {
        let (before, last) = cut_last(rest)?;
        ids.push(id_in(last)?);
        rest = before;
    }
    ids.reverse();
    let last = cut_last(rest).map_or(rest, |(_, last)| last);
    (!last.is_empty() && !last.iter().all(is_digit)).then_some((rest, ids))
}

/// The last line, and what is before it.
fn cut_last(lines: &[u8]) -> Option<(&[u8], &[u8])> {
    let at = lines.iter().rposition(|&byte| byte == b'\n')?;
    Some((&lines[..at], &lines[at + 1..]))
}

fn is_digit(byte: &u8) -> bool {
    matches!(byte, b'0'..=b'9' | b'a'..=b'f')
}

/// The id in a line that has nothing else.
fn id_in(line: &[u8]) -> Option<String> {
    let is_id = matches!(line.len(), 40 | 64) && line.iter().all(is_digit);
    is_id.then(|| String::from_utf8_lossy(line).into_owned())
}

/// The lines of `look_up`. A path may have line ends of its own.
fn take_apart(lines: &[u8]) -> Option<Told> {
    let at = lines.windows(4).position(|part| part == b"\nsha")?;
    let mut rest = lines[at + 1..].splitn(3, |&byte| byte == b'\n');
    let hash = match rest.next()? {
        b"sha1" => Hash::Sha1,
        _ => Hash::Sha256,
    };
    let is_shallow = rest.next()? != b"false";
    let path = |bytes: &[u8]| PathBuf::from(OsString::from_vec(bytes.to_vec()));
    Some(Told { info: path(&lines[..at]), hash, is_shallow, common: path(rest.next()?) })
}

/// The ids that revisions name, one by one: the first that names no commit is told.
pub fn read_revisions(session: &Session, revisions: &[OsString]) -> Result<Vec<String>, Error> {
    revisions.iter().map(|revision| commit_of(session, revision)).collect()
}

/// The id of the commit that a revision names.
fn commit_of(session: &Session, revision: &OsStr) -> Result<String, Error> {
    let word = commit_word(revision);
    let verify = || {
        let mut git = session.plain_git();
        git.args(["rev-parse", "-q", "--verify"]).stderr(Stdio::null());
        git
    };
    let (status, out) = session.output(verify().arg(&word));
    if status == 0 {
        let id = trimmed(&out);
        let is_one = !id.is_empty() && id.iter().all(is_digit);
        let not_one = || Error::NotOneCommit(word_of(revision));
        return is_one.then(|| String::from_utf8_lossy(id).into_owned()).ok_or_else(not_one);
    }
    pass_on_complaints(session, &word);
    match session.line(verify().arg(revision)) {
        Some(object) if !is_there(session, object.clone()) => {
            Err(Error::LostObject(word_of(revision)))
        }
        _ => Err(Error::NoCommit(word_of(revision))),
    }
}

/// Passes on what Git says of a name, but for the line that says nothing.
fn pass_on_complaints(session: &Session, word: &OsStr) {
    let mut git = session.plain_git();
    git.args(["rev-parse", "--verify"]).arg(word).stdout(Stdio::null()).stderr(Stdio::piped());
    let said = session.spawn(&mut git).and_then(std::process::Child::wait_with_output);
    for line in crate::text::text_of(&said.map_or(Vec::new(), |ended| ended.stderr)).lines() {
        if line != "fatal: Needed a single revision" {
            session.tell(&format!("{line}\n"));
        }
    }
}

/// Whether an object is there, or the one to which a tag leads.
fn is_there(session: &Session, mut object: String) -> bool {
    let file = |words: &[&str], object: &str| {
        let mut git = session.plain_git();
        session.line(git.arg("cat-file").args(words).arg(object))
    };
    while file(&["-t"], &object).as_deref() == Some("tag") {
        let line = file(&["tag"], &object).unwrap_or_default();
        object = line.strip_prefix("object ").unwrap_or_default().to_owned();
    }
    file(&["-e"], &object).is_some()
}

#[cfg(test)]
mod tests {
    use super::*;

    const ID: &str = "0123456789abcdef0123456789abcdef01234567";

    #[test]
    fn a_path_may_have_line_ends() {
        let told = take_apart(b"/a\nb/objects/info\nsha256\nfalse\n/a\nb").unwrap();
        assert_eq!((told.info, told.common), ("/a\nb/objects/info".into(), "/a\nb".into()));
        assert_eq!((told.hash, told.is_shallow), (Hash::Sha256, false));
        assert!(take_apart(b".git/objects/info\nsha1\ntrue\n.git").unwrap().is_shallow);
        assert_eq!(take_apart(b""), None);
    }

    #[test]
    fn one_id_for_each_revision() {
        let lines = format!("info\nsha1\nfalse\n.git\n{ID}\n{ID}");
        let (rest, ids) = take_ids(lines.as_bytes(), 2).unwrap();
        assert_eq!((rest, ids.len()), (&b"info\nsha1\nfalse\n.git"[..], 2));
        assert_eq!(take_ids(lines.as_bytes(), 1), None);
        assert_eq!(take_ids(lines.as_bytes(), 3), None);
        assert_eq!(take_ids(format!("info\n.git\n^{ID}").as_bytes(), 1), None);
    }

    #[test]
    fn a_search_for_a_message_stays_one() {
        assert_eq!(commit_word(OsStr::new(":/a")), ":/a");
        assert_eq!(commit_word(OsStr::new("")), "^{commit}");
    }
}
