//! `git cgraph`: checks the commit-graph of a repository, asks it about commits, and writes it.
//!
//! The answers are those of the proved programs `graphtool` and `historytool`. This package finds
//! the commit-graph and the ids of revisions, by Git, and says in sentences what a refusal means.

#![deny(unsafe_op_in_unsafe_fn)]
#![warn(clippy::too_many_lines)]

mod alternates;
mod answers;
mod ask;
pub mod commands;
pub mod completions;
mod cures;
mod diagnosis;
mod error;
mod fields;
mod graph;
mod guard;
pub mod help;
mod ids;
mod json;
mod known;
mod layers;
mod list;
mod locks;
mod lost;
mod manual;
mod objects;
pub mod pages;
mod paths;
mod program;
mod progress;
mod question;
mod refusals;
mod repository;
mod ring;
mod scratch;
mod session;
mod show;
mod system;
mod target;
mod text;
mod verify;
mod words;
mod write;

use std::ffi::OsString;

use session::{Passed, Session, UNREAD};
use words::{Request, Wrong};

/// The number of the version, and the kit by which the programs were proved.
const VERSION: &str = include_str!("../../VERSION");

/// The status for words that are no command.
const WRONG_WORDS: i32 = 129;

/// Answers the words of the command line, and ends. The status is 0 where all is right or something
/// was found, 1 where the commit-graph is wrong or the answer is no or none, 128 where there is no
/// answer, 129 for words that are no command, and 141 where nobody reads the answer.
pub fn run(words: &[OsString]) -> ! {
    let session = Session::begin();
    let status = match words::read(words) {
        Ok(Request::Help(word)) => tell(&session, &help::help(word)),
        Ok(Request::Version) => tell(&session, &format!("git-cgraph {VERSION}")),
        Ok(Request::Question(words)) => answers::answer(&session, &words),
        Err(Wrong { error, word }) => {
            session.say(&error.to_string());
            session.tell(&help::usage(word));
            WRONG_WORDS
        }
    };
    session.guard.exit(status)
}

/// Writes the help or the version.
fn tell(session: &Session, text: &str) -> i32 {
    match session.write(text.as_bytes()) {
        Passed::Whole => 0,
        Passed::Unread => UNREAD,
        Passed::Failed => {
            session.say(&error::Error::Unwritten.to_string());
            answers::NO_ANSWER
        }
    }
}
