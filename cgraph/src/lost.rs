//! What is wrong where commits or trees are missing or damaged, or cannot be listed; and what kept
//! `write` from writing.

use std::fs;
use std::path::{Path, PathBuf};
use std::process::Stdio;

use crate::commands::Tool;
use crate::cures::Wish;
use crate::diagnosis::Case;
use crate::error::Error;
use crate::paths::obstacle;
use crate::refusals::number_after;
use crate::system::{may, Right};
use crate::text::{quoted, shown, text_of};

impl Case<'_> {
    /// Finds out what is known of a commit that is not as the commit-graph has it.
    pub fn diagnose_object(&mut self) {
        let line = self.answer.line.clone();
        self.name_commit_by_ids(&line);
        match line.strip_prefix("refused objects ").and_then(|rest| rest.split(' ').next()) {
            Some("1" | "4") => self.diagnose_missing(),
            Some("2") => self.known.is_absent = true,
            Some("6") => self.diagnose_damaged(),
            Some("7") => {}
            _ => {
                self.name_file();
                self.advise_anew();
            }
        }
    }

    /// Finds out what is known of a commit that is newer than the commit-graph, and was refused.
    pub fn diagnose_newer(&mut self) {
        let line = self.answer.line.clone();
        self.known.commit = number_after(&line, " id ").unwrap_or_default().to_owned();
        match line.strip_prefix("refused newer ").and_then(|rest| rest.split(' ').next()) {
            Some("1" | "4") => self.diagnose_lost(),
            Some("2" | "3") => self.known.is_absent = true,
            Some("6") => self.diagnose_damaged(),
            _ => {}
        }
    }

    /// Finds out what is known of a changed-path filter that was refused, or of a tree that it needs.
    pub fn diagnose_paths(&mut self) {
        let line = self.answer.line.clone();
        self.name_commit_by_ids(&line);
        self.known.tree = number_after(&line, " id ").unwrap_or_default().to_owned();
        match line.strip_prefix("refused paths ").and_then(|rest| rest.split(' ').next()) {
            Some("1" | "4") => self.diagnose_lost(),
            Some("2" | "3" | "9" | "10") => self.known.is_absent = true,
            Some("5" | "7" | "8") => {}
            Some("6") => self.diagnose_damaged(),
            _ => {
                self.name_file();
                self.advise_anew();
            }
        }
    }

    /// The id of the object that is missing or damaged, and what it is.
    fn object(&self) -> (&str, &'static str) {
        match self.known.tree.as_str() {
            "" => (&self.known.commit, "commit"),
            tree => (tree, "tree"),
        }
    }

    /// Names the commit at the position of which a line speaks, as `historytool` lists the ids.
    fn name_commit_by_ids(&mut self, line: &str) {
        self.known.commit = number_after(line, " position ")
            .and_then(|position| position.parse().ok())
            .and_then(|position| self.id_at(position))
            .unwrap_or_default();
    }

    /// The id at a position of the commit-graph.
    fn id_at(&self, position: u64) -> Option<String> {
        let session = self.question.session;
        let historytool = session.program(Tool::Historytool).ok()?;
        let mut ids =
            crate::objects::ids(self.place.as_ref()?, &historytool, Some((position, position + 1)));
        session.line(&mut ids).filter(|line| !line.is_empty())
    }

    /// The same where Git wrote no such object.
    fn diagnose_missing(&mut self) {
        let unreadable = self.unreadable_file();
        self.known.file.clone_from(&unreadable);
        let question = self.question;
        if self.git_has_means() {
            self.known.is_absent = true;
            self.known.advice = "see what Git says, and ask again".to_owned();
        } else if let Some((file, reason)) =
            unreadable.and_then(|file| obstacle(&file).map(|it| (file, it)))
        {
            self.known.is_absent = true;
            self.known.place = format!("the file '{}' {reason}", shown(&file));
            self.known.advice =
                "see to it that whoever runs this may read the objects, and ask again".to_owned();
            self.known.cure = vec![format!("ls -l {}", quoted(&file))];
        } else if self.loose_file().is_some() || self.is_stored() {
            self.diagnose_damaged();
        } else if self.is_past_the_end() {
            self.known.is_absent = true;
        } else if self.newer.is_some() || !self.known.tree.is_empty() {
            self.known.advice = format!(
                "the {} is missing, and has to come back: take it from another copy of the \
                 repository, and ask again",
                self.object().1
            );
            self.known.cure = vec![format!("{} fsck", question.git_here())];
        } else if matches!(question.words.word(), "write" | "show") || self.is_lost() {
            self.known.advice =
                "the commit is missing, and has to come back: take it from another \
                                 copy of the repository, and ask again. Keep the commit-graph, \
                                 which may have the last record of its parents"
                    .to_owned();
            self.known.cure = vec![format!("{} fsck", question.git_here())];
        } else {
            self.advise_without();
        }
    }

    /// Says where the object can be fetched: in a shallow repository, past whose end it lies, and
    /// in a partial clone.
    fn is_past_the_end(&mut self) -> bool {
        let git = self.question.git_here();
        let (id, object) = self.object();
        if self.question.repository.is_shallow {
            self.known.advice = format!(
                "this repository is shallow, and the {object} lies past its end: fetch the whole \
                 history, and ask again"
            );
            self.known.cure = vec![format!("{git} fetch --unshallow")];
        } else if self.is_partial() {
            let cure = format!("{git} cat-file -e {id}");
            self.known.advice = format!(
                "this is a partial clone, in which the {object} is not here, and nothing was \
                 fetched: let Git fetch it, and ask again"
            );
            self.known.cure = vec![cure];
        } else {
            return false;
        }
        true
    }

    /// Whether Git can read the object after all, or fails for want of something, which tells
    /// nothing of it.
    fn git_has_means(&self) -> bool {
        let session = self.question.session;
        let (id, object) = self.object();
        let mut git = session.git_alone();
        git.env("LC_ALL", "C").args(["cat-file", object, id]);
        let child = session.spawn(git.stdout(Stdio::null()).stderr(Stdio::piped()));
        let ended = child.and_then(std::process::Child::wait_with_output);
        ended.is_ok_and(|ended| ended.status.success() || lacks_means(&text_of(&ended.stderr)))
    }

    /// Whether Git says that the object is there.
    fn is_stored(&self) -> bool {
        let session = self.question.session;
        session.succeeds(session.git_alone().args(["cat-file", "-e", self.object().0]))
    }

    /// Whether Git may fetch objects that are not here.
    fn is_partial(&self) -> bool {
        let session = self.question.session;
        let mut git = session.git();
        git.args(["config", "--get-regexp", r"^(remote\..*\.promisor|extensions\.partialclone)$"]);
        session.succeeds(&mut git)
    }

    /// Whether a reference, or the HEAD of a worktree, leads to a commit that is missing, as far as
    /// Git can tell: it lists all commits only where none of them is.
    fn is_lost(&self) -> bool {
        let session = self.question.session;
        let line = self.question.progress.waiting(&session.guard, "Looking for lost commits");
        let mut git = session.plain_git();
        let lists = session.succeeds(git.args(["rev-list", "--quiet", "--all"]));
        line.end();
        !lists
    }

    /// The same of a commit to which nothing leads, so that Git removed it.
    fn advise_without(&mut self) {
        self.advise_anew();
        let cures = self.cures();
        if !cures.is_foreign() && !cures.is_hindered(&mut self.known.clone()) {
            self.known.advice =
                "no reference and no HEAD leads to the commit, so that Git removed \
                                 it: write the commit-graph anew, without it"
                    .to_owned();
        }
    }

    /// The same where the object is damaged.
    fn diagnose_damaged(&mut self) {
        let file = self.loose_file();
        if let Some(file) = &file {
            self.known.place = format!("the object is '{}'", shown(file));
        }
        self.known.file = file;
        self.known.advice =
            "see which objects are damaged, and take them from another copy of the repository"
                .to_owned();
        self.known.cure = vec![format!("{} fsck", self.question.git_here())];
    }

    /// The object folders, that of the repository among them.
    fn object_folders(&self) -> Vec<&Path> {
        let question = self.question;
        let folders = question.places.folders.iter().chain([&question.repository.objects]);
        folders.map(PathBuf::as_path).collect()
    }

    /// The file of the object by itself, if it stands in one.
    fn loose_file(&self) -> Option<PathBuf> {
        let id = self.object().0;
        let (start, rest) = (id.get(..2)?, id.get(2..)?);
        let files = self.object_folders().into_iter().map(|folder| folder.join(start).join(rest));
        files.into_iter().find(|file| file.is_file())
    }

    /// The file of the object, or a pack, that is there and may not be read.
    fn unreadable_file(&self) -> Option<PathBuf> {
        let is_closed = |file: &PathBuf| file.exists() && !may(file, Right::Read);
        let packs =
            self.object_folders().into_iter().flat_map(|folder| packs_in(&folder.join("pack")));
        self.loose_file().into_iter().chain(packs).find(is_closed)
    }

    /// The same of a list that Git could not write to its end: what it says names the object, or a
    /// reference.
    pub fn diagnose_listing(&mut self, listed: &str) {
        let session = self.question.session;
        let mut git = session.plain_git();
        git.env("LC_ALL", "C").args(["rev-list", "--quiet", listed]);
        let child = session.spawn(git.stdout(Stdio::piped()).stderr(Stdio::piped()));
        let ended = child.and_then(std::process::Child::wait_with_output);
        let said = ended.map_or_else(|_| String::new(), |ended| text_of(&ended.stderr));
        let reference = said.lines().find_map(|line| line.strip_prefix("fatal: bad object "));
        let reference = reference.filter(|name| name.starts_with("refs/"));
        let by_name = || {
            let mut git = session.plain_git();
            session.line(git.args(["rev-parse", "-q", "--verify", reference?]))
        };
        match id_among(&said).map(str::to_owned).or_else(by_name) {
            Some(id) if !id.is_empty() => {
                self.known.commit = id;
                self.diagnose_lost();
            }
            _ => {
                if let Some(name) = reference {
                    self.known.place = format!("the reference '{name}' cannot be read");
                }
            }
        }
    }

    /// The same of an object that Git did not write.
    pub fn diagnose_lost(&mut self) {
        self.known.is_absent = false;
        self.diagnose_missing();
    }

    /// Finds out what kept `write` from writing: nothing is wrong with the commits, as far as one
    /// knows.
    pub fn diagnose_write(&mut self) {
        self.known.is_absent = true;
        let line = self.answer.line.clone();
        let (kind, number) = kind_of(&line);
        match (kind, number) {
            _ if line == Error::Unlisted.to_string() => self.diagnose_listing("--glob=refs/*"),
            ("stream", 1..=4) if self.name_commit() => self.diagnose_lost(),
            ("stream", 5) if self.name_commit() => {
                self.known.is_absent = false;
                self.diagnose_damaged();
            }
            ("stream", 6..) | ("write", 3 | 4) if self.name_commit() => {
                self.known.is_absent = false
            }
            ("write", 6 | 7) if self.name_commit() => self.write_one_file(),
            _ if line == "refused write 10 limit 3" => self.write_one_file(),
            ("stream" | "write", _) => {}
            _ if line.starts_with("refused ") => {
                self.name_file();
                if self.known.place.is_empty() {
                    self.find_obstacle();
                }
                self.write_one_file();
            }
            _ => {}
        }
    }

    /// Says what to do where the layers that stand are not right, or are too many.
    fn write_one_file(&mut self) {
        let mut known = std::mem::take(&mut self.known);
        let file = known.file.clone();
        let cures = crate::cures::Cures::new(self.question, &self.graph, file.as_deref());
        if cures.is_foreign() {
            cures.advise_own(&mut known, Wish::Mend);
        } else {
            known.advice = "write it anew as one file".to_owned();
            known.cure = cures.writes_own("");
        }
        self.known = known;
    }

    /// Names the commit of which a refusal speaks by its number, if there is one of this number.
    fn name_commit(&mut self) -> bool {
        let line = &self.answer.line;
        let number = number_after(line, " entry ").or_else(|| number_after(line, " commit "));
        let number = number.and_then(|number| number.parse::<usize>().ok());
        let ids = self.question.scratch.path("ids").ok().and_then(|path| fs::read(path).ok());
        let id = number
            .zip(ids)
            .and_then(|(number, ids)| ids.split(|&byte| byte == b'\n').nth(number).map(text_of));
        self.known.commit = id.unwrap_or_default();
        !self.known.commit.is_empty()
    }
}

/// The packs in a folder, and their indices.
fn packs_in(folder: &Path) -> Vec<PathBuf> {
    let entries = fs::read_dir(folder).into_iter().flatten().flatten().map(|entry| entry.path());
    let is_pack =
        |path: &PathBuf| path.extension().is_some_and(|end| end == "idx" || end == "pack");
    let mut packs: Vec<PathBuf> = entries.filter(is_pack).collect();
    packs.sort_unstable();
    packs
}

/// Whether Git says that it failed for want of something.
fn lacks_means(said: &str) -> bool {
    ["allocate memory", "ut of memory", "Too many open files", "Input/output error", "unavailable"]
        .iter()
        .any(|part| said.contains(part))
}

/// The first word of a text that is an id.
fn id_among(text: &str) -> Option<&str> {
    let words = text.split(|letter: char| !letter.is_ascii_alphanumeric() && letter != '_');
    let is_digit = |byte: u8| matches!(byte, b'0'..=b'9' | b'a'..=b'f');
    words.into_iter().find(|word| matches!(word.len(), 40 | 64) && word.bytes().all(is_digit))
}

/// The kind and the number of a refusal of a stream or of a layer.
fn kind_of(line: &str) -> (&str, u32) {
    let mut words = line.split(' ').skip(1);
    let kind = words.next().filter(|_| line.starts_with("refused ")).unwrap_or_default();
    (kind, words.next().and_then(|number| number.parse().ok()).unwrap_or(0))
}

#[cfg(test)]
mod tests {
    use super::*;

    #[test]
    fn ids_among_words() {
        let id = "0123456789abcdef0123456789abcdef01234567";
        assert_eq!(id_among(&format!("fatal: bad object {id}\n")), Some(id));
        assert_eq!(id_among(&format!("error: {id}.idx: x{id}")), Some(id));
        assert_eq!(id_among("fatal: bad object refs/heads/x"), None);
    }

    #[test]
    fn kinds_of_refusals() {
        assert_eq!(kind_of("refused stream 5 entry 1"), ("stream", 5));
        assert_eq!(kind_of("refused write 11"), ("write", 11));
        assert_eq!(kind_of("ended by signal 9"), ("", 0));
    }
}
