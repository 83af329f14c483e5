//! What one question is about: the repository, the commits that are named, and where a commit-graph
//! may be.

use std::env;
use std::path::Path;

use crate::commands::Command;
use crate::graph::Places;
use crate::paths::same_file;
use crate::progress::Progress;
use crate::repository::Repository;
use crate::scratch::Scratch;
use crate::session::Session;
use crate::text::{quoted, shown};
use crate::words::{Options, Words};

/// A question.
pub struct Question<'a> {
    pub session: &'a Session,
    pub words: &'a Words,
    pub repository: Repository,
    /// The ids of the commits that are named, in their order.
    pub ids: Vec<String>,
    pub places: Places,
    pub scratch: &'a Scratch,
    pub progress: Progress,
}

impl Question<'_> {
    /// The command.
    pub fn command(&self) -> &Command {
        &self.words.command
    }

    /// The options.
    pub fn options(&self) -> &Options {
        &self.words.options
    }

    /// The object folder that is named, as a path from the root.
    pub fn named(&self) -> Option<&Path> {
        self.places.is_named.then(|| self.places.folders[0].as_path())
    }

    /// Whether the shell that asks stands in another folder than this one, by -C. After `git -C`
    /// the variable PWD still names its folder, as Git has passed it on.
    fn is_moved(&self) -> bool {
        let from = env::var_os("PWD").filter(|path| !path.is_empty());
        !self.options().folders.is_empty()
            || from.is_some_and(|from| !same_file(Path::new(&from), Path::new(".")))
    }

    /// `git`, as it is called for the repository of the question: by -C where that folder is not
    /// the shell's.
    pub fn git_here(&self) -> String {
        if has_git_dir() {
            format!("git --git-dir={}", quoted(&self.repository.common))
        } else if self.is_moved() {
            format!("git -C {}", quoted(env::current_dir().unwrap_or_default()))
        } else {
            "git".to_owned()
        }
    }

    /// `git` with the words by which it speaks of this repository from the shell that asks.
    pub fn git_there(&self) -> String {
        let mut git = "git".to_owned();
        if has_git_dir() || self.is_moved() {
            git += &format!(" --git-dir={}", quoted(&self.repository.common));
        }
        if self.has_replacements() {
            git += " --no-replace-objects";
        }
        git
    }

    /// Whether commits have replacements.
    pub fn has_replacements(&self) -> bool {
        self.repository.has_replacements(self.session)
    }

    /// Whether the HEAD of a worktree leads to a commit to which no reference leads.
    pub fn has_heads(&self) -> bool {
        let mut git = self.session.plain_git();
        git.args(["rev-list", "-n", "1", "--all", "--not", "--glob=refs/*"]);
        self.session.line(&mut git).is_some_and(|line| !line.is_empty())
    }

    /// Whether some branch or tag leads to a commit, be it one that cannot be read.
    pub fn has_commits(&self) -> bool {
        let mut git = self.session.git();
        git.args(["-c", "core.commitGraph=false", "rev-list", "-n", "1", "--all"]);
        self.session.line(&mut git) != Some(String::new())
    }

    /// Whether Git uses no commit-graph here, as the user wants it.
    pub fn is_unused(&self) -> bool {
        let mut git = self.session.git();
        git.args(["config", "--type=bool", "core.commitGraph"]);
        self.session.line(&mut git).as_deref() == Some("false")
    }

    /// Whether some words of `git rev-list`, as --all, lead to a commit, or whether Git cannot
    /// tell.
    pub fn is_led_to(&self, commit: &str, by: &[&str]) -> bool {
        let mut git = self.session.plain_git();
        git.args(["rev-list", "-n", "1", commit, "--not"]).args(by);
        self.session.line(&mut git).unwrap_or_default().is_empty()
    }

    /// The sentences on Git's own answers, where they go by other parents than those that stand in
    /// the commits.
    pub fn other_parents(&self) -> Vec<String> {
        let mut said = Vec::new();
        if self.has_replacements() {
            said.push(
                "some commits are replaced (git replace): Git answers by the replacements, unless \
                 it is called as git --no-replace-objects"
                    .to_owned(),
            );
        }
        if self.repository.has_grafts() {
            let grafts = shown(self.repository.grafts());
            said.push(format!(
                "the file '{grafts}' gives commits other parents: Git answers by those"
            ));
        }
        if self.repository.is_shallow {
            said.push(
                "this repository is shallow: Git answers as if the commits at its end had no \
                 parents"
                    .to_owned(),
            );
        }
        said
    }
}

/// Whether a variable names the repository.
fn has_git_dir() -> bool {
    env::var_os("GIT_DIR").is_some_and(|path| !path.is_empty())
}
