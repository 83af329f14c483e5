//! All that may keep `git cgraph` from an answer, as the sentences that say so.

use std::fmt;
use std::path::PathBuf;

use crate::commands::Takes;
use crate::text::shown;

/// What went wrong. `Display` has the sentence; where the table of refusals has a row of it, that
/// says more.
#[derive(Clone, Debug, PartialEq, Eq)]
pub enum Error {
    NoCommand,
    UnknownCommand(String),
    UnknownOption(String),
    OptionOfOthers { word: &'static str, option: String },
    NoFolder(&'static str),
    NoNumber(&'static str),
    NoJobs(String),
    OtherRevisions { word: &'static str, takes: Takes },
    JobsAlone,
    AskInJson,
    AskQuietly,
    AskWithProgress,
    Closed(PathBuf),
    NoRepository,
    NoCommit(String),
    NotOneCommit(String),
    LostObject(String),
    NoScratch(PathBuf),
    NoMomentFile(PathBuf),
    Unbuilt,
    Unwritten,
    UnknownWords,
    Signal(i32),
    GitEnded(i32),
    IdsEnded(i32),
    QuestionsUnread,
    NoGraph,
    WrittenAnew,
    Unused,
    Locked,
    HasFilters,
    ScratchFull,
    Unlisted,
    NotWritten,
    NotCompared,
    MayDiffer,
}

impl fmt::Display for Error {
    fn fmt(&self, out: &mut fmt::Formatter<'_>) -> fmt::Result {
        let sentence = match self {
            Error::NoCommand => "there is no command",
            Error::JobsAlone => "'--jobs' goes with '--objects'",
            Error::AskInJson => {
                "'ask' has no option '--json': each answer is some lines, and an empty one"
            }
            Error::AskQuietly => {
                "'ask' has no option '--quiet': its answers are all that it is asked for"
            }
            Error::AskWithProgress => "'ask' has no option '--progress'",
            Error::NoRepository => "Git tells of no repository here",
            Error::Unbuilt => "the program could not be proved or built",
            Error::Unwritten => "the answer could not be written",
            Error::UnknownWords => "the program does not take these words",
            Error::QuestionsUnread => "the questions could not be read to their end",
            Error::NoGraph => "there is no commit-graph",
            Error::WrittenAnew => "the commit-graph was written anew meanwhile",
            Error::Unused => "Git uses no commit-graph here",
            Error::Locked => "the commit-graph is locked",
            Error::HasFilters => "the commit-graph has changed-path filters",
            Error::ScratchFull => "a file of a moment could not be written to its end",
            Error::Unlisted => "the commits of this repository could not be listed",
            Error::NotWritten => "the commit-graph could not be written",
            Error::NotCompared => "the ids could not be compared",
            Error::MayDiffer => "the answer may differ from Git's",
            _ => return self.write_with_names(out),
        };
        out.write_str(sentence)
    }
}

impl Error {
    /// Whether the words are no command.
    #[cfg(test)]
    pub fn is_of_words(&self) -> bool {
        matches!(
            self,
            Error::NoCommand
                | Error::UnknownCommand(_)
                | Error::UnknownOption(_)
                | Error::OptionOfOthers { .. }
                | Error::NoFolder(_)
                | Error::NoNumber(_)
                | Error::NoJobs(_)
                | Error::OtherRevisions { .. }
                | Error::JobsAlone
                | Error::AskInJson
                | Error::AskQuietly
                | Error::AskWithProgress
        )
    }

    /// Writes a sentence that names something.
    fn write_with_names(&self, out: &mut fmt::Formatter<'_>) -> fmt::Result {
        match self {
            Error::UnknownCommand(word) => write!(out, "there is no command '{word}'"),
            Error::UnknownOption(option) => write!(out, "there is no option '{option}'"),
            Error::OptionOfOthers { word, option } => {
                write!(out, "'{word}' has no option '{option}'")
            }
            Error::NoFolder(option) => write!(out, "after {option} there has to be a folder"),
            Error::NoNumber(option) => write!(out, "after {option} there has to be a number"),
            Error::NoJobs(text) => write!(out, "'{text}' is no number of jobs from 1 to 99"),
            Error::OtherRevisions { word, takes } => {
                write!(out, "'{word}' takes {}", revisions(*takes))
            }
            Error::Closed(folder) => {
                write!(out, "the folder '{}' cannot be entered", shown(folder))
            }
            Error::NoCommit(name) => write!(out, "'{name}' names no commit of this repository"),
            Error::NotOneCommit(name) => write!(out, "'{name}' is not the name of one commit"),
            Error::LostObject(name) => {
                write!(out, "the object that '{name}' names is missing, or cannot be read")
            }
            Error::NoScratch(folder) => write!(
                out,
                "no folder for files of a moment can be made in '{}': TMPDIR has to name one that \
                 may be written",
                shown(folder)
            ),
            Error::NoMomentFile(folder) => {
                write!(out, "no file of a moment can be made in '{}'", shown(folder))
            }
            Error::Signal(number) => write!(out, "ended by signal {number}"),
            Error::GitEnded(status) => write!(out, "git cat-file ended with status {status}"),
            Error::IdsEnded(status) => write!(out, "historytool ids ended with status {status}"),
            _ => Ok(()),
        }
    }
}

/// How many revisions a command takes, in words.
fn revisions(takes: Takes) -> &'static str {
    match takes {
        Takes::Ids(0) | Takes::Range => "no revision",
        Takes::Ids(1) => "one revision",
        Takes::Ids(_) => "two revisions",
        Takes::IdsOrMore(_) => "two revisions or more",
    }
}

impl std::error::Error for Error {}
