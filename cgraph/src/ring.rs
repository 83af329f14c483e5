//! Questions for which `historytool` needs objects: commits that the commit-graph lacks, or trees.
//!
//! Two processes run in a ring: `historytool` asks for the objects that it lacks, an id a line, and
//! `git cat-file` writes them. An empty line ends what is asked for, and the answer follows.

use std::io::{self, BufRead, BufReader, Read, Write};
use std::path::Path;
use std::process::{Child, ChildStdin, Command, Stdio};
use std::sync::Arc;

use crate::error::Error;
use crate::program::{judged, listen_to, not_started, read_aside, Answer, Call, Sink};
use crate::progress::{Counter, Line, Progress};
use crate::session::{Passed, Session};
use crate::text::text_of;

/// From so many commits on it is said that a commit-graph that has them makes answers fast.
pub const MANY: u64 = 10_000;

/// What a program asks for.
#[derive(Clone, Copy, Debug, PartialEq, Eq)]
pub enum Objects {
    /// Commits that are newer than the commit-graph.
    Commits,
    Trees,
}

impl Objects {
    /// What the line of a refusal of one of them begins with.
    fn refused(self) -> &'static str {
        match self {
            Objects::Commits => "refused newer ",
            Objects::Trees => "refused paths ",
        }
    }
}

/// What is answered, and how many objects were read for it.
pub struct Answered {
    pub answer: Answer,
    pub read: u64,
}

/// Runs a program that asks for objects, and passes on what it answers. The line that says how far
/// it is ends where it asks for the first one, and another says how many were asked for.
pub fn ask(
    session: &Session,
    call: &Call,
    objects: Objects,
    sink: &mut dyn Sink,
    line: Line,
    progress: Progress,
) -> Answered {
    sink.begin();
    if !session.has_output() {
        line.end();
        let answer = Answer { passed: Passed::Failed, ..Answer::failed(2, &Error::Unwritten) };
        return Answered { answer, read: 0 };
    }
    match Ring::start(session, call) {
        Ok(ring) => ring.run(session, objects, sink, line, progress),
        Err(answer) => {
            line.end();
            Answered { answer, read: 0 }
        }
    }
}

/// Both processes.
struct Ring {
    git: Child,
    tool: Child,
}

impl Ring {
    fn start(session: &Session, call: &Call) -> Result<Self, Answer> {
        let mut cat_file = session.git_alone();
        cat_file.args(["cat-file", "--batch"]);
        cat_file.stdin(Stdio::piped()).stdout(Stdio::piped()).stderr(Stdio::piped());
        let mut git =
            session.spawn(&mut cat_file).map_err(|error| not_started(Path::new("git"), &error))?;
        let mut tool: Command = call.command();
        tool.stdin(git.stdout.take().map_or(Stdio::null(), Stdio::from));
        match session.spawn(&mut tool) {
            Ok(tool) => Ok(Ring { git, tool }),
            Err(error) => {
                drop(git.stdin.take());
                session.wait(&mut git);
                Err(not_started(call.program, &error))
            }
        }
    }

    /// Passes on what is asked for, and then the answer.
    fn run(
        mut self,
        session: &Session,
        objects: Objects,
        sink: &mut dyn Sink,
        line: Line,
        progress: Progress,
    ) -> Answered {
        line.of_process(self.tool.id());
        let said = self.git.stderr.take().map(read_aside);
        let asked = self.git.stdin.take().zip(self.tool.stdout.take());
        let mut passing = Passing { read: 0, line: Some(line), session, objects, progress };
        let mut answer = match asked {
            Some((to, from)) => {
                let mut from = BufReader::with_capacity(1 << 16, from);
                let answer = match passing.pass(&mut from, to) {
                    Ok(()) => listen_to(session, self.tool, from, sink),
                    // It is not known where the answer begins.
                    Err(_) => {
                        drop(from);
                        Answer::unwritten(session.wait(&mut self.tool))
                    }
                };
                passing.end();
                answer
            }
            None => Answer::of(session.wait(&mut self.tool), ""),
        };
        session.wait(&mut self.git);
        if answer.line.starts_with(objects.refused()) {
            let said = said.and_then(|thread| thread.join().ok()).unwrap_or_default();
            answer.said = text_of(&said) + &answer.said;
        }
        Answered { answer: judged(answer), read: passing.read }
    }
}

/// The lines that ask are passed on.
struct Passing<'a> {
    read: u64,
    line: Option<Line>,
    session: &'a Session,
    objects: Objects,
    progress: Progress,
}

impl Passing<'_> {
    /// Passes on lines up to an empty one, or to the end. Where Git has ended, nobody takes them any
    /// more: the program still asks until it sees that, and then says so in its answer.
    fn pass(&mut self, from: &mut BufReader<impl Read>, to: ChildStdin) -> io::Result<()> {
        let mut to = Some(to);
        let mut counter = None;
        let mut ids = Vec::new();
        loop {
            ids.clear();
            let is_end = take_lines(from, &mut ids)?;
            if !ids.is_empty() {
                let counter = counter.get_or_insert_with(|| self.begin_counting());
                self.count(&ids, counter.as_ref());
                to = to.filter(|mut git| git.write_all(&ids).is_ok());
            }
            if is_end {
                return Ok(());
            }
        }
    }

    /// Begins the line on how many objects were asked for.
    fn begin_counting(&mut self) -> Option<Counter> {
        self.end();
        let line = self.progress.gathering(&Arc::clone(&self.session.guard), self.objects);
        let counter = line.counter();
        self.line = Some(line);
        counter
    }

    fn count(&mut self, ids: &[u8], counter: Option<&Counter>) {
        let count = ids.iter().filter(|&&byte| byte == b'\n').count() as u64;
        self.read += count;
        if let Some(counter) = counter {
            counter.add(count);
        }
    }

    /// Ends the line.
    fn end(&mut self) {
        if let Some(line) = self.line.take() {
            line.end();
        }
    }
}

/// Takes those whole lines that are there, one at least, and tells whether they end: an empty line
/// ends them, or the end of all.
fn take_lines(from: &mut BufReader<impl Read>, lines: &mut Vec<u8>) -> io::Result<bool> {
    loop {
        let start = lines.len();
        from.read_until(b'\n', lines)?;
        if matches!(&lines[start..], [] | [b'\n']) {
            lines.truncate(start);
            return Ok(true);
        }
        if !from.buffer().contains(&b'\n') {
            return Ok(false);
        }
    }
}

#[cfg(test)]
mod tests {
    use super::*;

    fn taken(text: &str, size: usize) -> (String, String) {
        let mut from = BufReader::with_capacity(size, text.as_bytes());
        let (mut lines, mut rest) = (Vec::new(), String::new());
        while !take_lines(&mut from, &mut lines).unwrap() {}
        from.read_to_string(&mut rest).unwrap();
        (text_of(&lines), rest)
    }

    #[test]
    fn an_empty_line_ends_what_is_asked_for() {
        let parts = |lines: &str, rest: &str| (lines.to_owned(), rest.to_owned());
        for size in [1, 2, 3, 5, 64] {
            assert_eq!(taken("ab\ncd\n\nyes\n", size), parts("ab\ncd\n", "yes\n"));
            assert_eq!(taken("\nunknown 1\n", size), parts("", "unknown 1\n"));
            assert_eq!(taken("ab\n", size), parts("ab\n", ""));
            assert_eq!(taken("", size), parts("", ""));
        }
    }
}
