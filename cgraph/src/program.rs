//! Runs a proved program, and passes on what it answers.

use std::fs::File;
use std::io::{self, BufRead, BufReader, Read};
use std::path::Path;
use std::process::{Child, ChildStderr, Command, Stdio};
use std::sync::Arc;
use std::thread::{self, JoinHandle};

use crate::error::Error;
use crate::progress::Line;
use crate::session::{signal_in, Passed, Session, NAME};
use crate::text::text_of;

/// What a program answered.
#[derive(Clone, Debug)]
pub struct Answer {
    /// Its status, or 128 and a signal.
    pub status: i32,
    /// The first line that it wrote, or the sentence in the place of an answer.
    pub line: String,
    /// What has to be said on standard error: what the program said there, or that sentence.
    pub said: String,
    /// What became of the answer.
    pub passed: Passed,
}

impl Answer {
    /// A line that is told without a program.
    pub fn of(status: i32, line: impl Into<String>) -> Self {
        Answer { status, line: line.into(), said: String::new(), passed: Passed::Whole }
    }

    /// What is told of a program whose answer did not come.
    pub fn unwritten(status: i32) -> Self {
        Answer { passed: Passed::Failed, ..Answer::of(status, "") }
    }

    /// What is said where there is no answer, in the place of what a program said.
    pub fn failed(status: i32, error: &Error) -> Self {
        Answer { said: format!("{NAME}: {error}\n"), ..Answer::of(status, error.to_string()) }
    }

    /// The same, said behind what was said before.
    pub fn fail(&mut self, status: i32, error: &Error) {
        self.said += &format!("{NAME}: {error}\n");
        self.status = status;
        self.line = error.to_string();
    }

    /// Whether it is a refusal.
    pub fn is_refused(&self) -> bool {
        self.line.starts_with("refused ")
    }
}

/// Takes the lines of an answer. A refusal that comes first is not passed on: the caller decides
/// whether it is written.
pub trait Sink {
    /// Begins with an answer; an earlier one is forgotten.
    fn begin(&mut self) {}

    /// Takes some bytes.
    fn take(&mut self, bytes: &[u8]) -> Passed;
}

/// Writes nothing, where the status alone is asked for.
pub struct Silence;

impl Sink for Silence {
    fn take(&mut self, _: &[u8]) -> Passed {
        Passed::Whole
    }
}

/// Writes to standard output.
pub struct Plain<'a>(pub &'a Session);

impl Sink for Plain<'_> {
    fn take(&mut self, bytes: &[u8]) -> Passed {
        self.0.write(bytes)
    }
}

/// Keeps all.
#[derive(Default)]
pub struct Held(pub Vec<u8>);

impl Sink for Held {
    fn begin(&mut self) {
        self.0.clear();
    }

    fn take(&mut self, bytes: &[u8]) -> Passed {
        self.0.extend_from_slice(bytes);
        Passed::Whole
    }
}

/// A call of a program.
pub struct Call<'a> {
    pub program: &'a Path,
    pub words: &'a [&'a str],
    pub folder: &'a Path,
    /// A file to read, if it reads one. `ask` reads what this program is given.
    pub input: Option<File>,
    pub asks: bool,
}

impl Call<'_> {
    /// The process, whose streams are read.
    pub fn command(&self) -> Command {
        let mut command = Command::new(self.program);
        command.args(self.words).current_dir(self.folder);
        command.stdout(Stdio::piped()).stderr(Stdio::piped());
        let input = self.input.as_ref().and_then(|file| file.try_clone().ok());
        match input {
            Some(file) => command.stdin(file),
            None if self.asks => command.stdin(Stdio::inherit()),
            None => command.stdin(Stdio::null()),
        };
        command
    }
}

/// Runs a program, and passes on what it writes. The line that says how far it is ends with it.
pub fn ask(session: &Session, call: &Call, sink: &mut dyn Sink, line: Line) -> Answer {
    sink.begin();
    if !session.has_output() {
        line.end();
        return Answer { passed: Passed::Failed, ..Answer::failed(2, &Error::Unwritten) };
    }
    let answer = match session.spawn_with(&mut call.command(), call.asks) {
        Ok(child) => {
            line.of_process(child.id());
            listen(session, child, sink)
        }
        Err(error) => not_started(call.program, &error),
    };
    line.end();
    judged(answer)
}

/// What is answered where a program cannot be started.
pub fn not_started(program: &Path, error: &io::Error) -> Answer {
    let said = format!("{NAME}: {}: {error}\n", crate::text::shown(program));
    Answer { said, ..Answer::of(126, "") }
}

/// Reads what a program writes and says.
fn listen(session: &Session, mut child: Child, sink: &mut dyn Sink) -> Answer {
    match child.stdout.take() {
        Some(out) => listen_to(session, child, BufReader::with_capacity(1 << 16, out), sink),
        None => Answer::unwritten(session.wait(&mut child)),
    }
}

/// Reads what a program says, and what it still writes.
pub fn listen_to(
    session: &Session,
    mut child: Child,
    out: impl BufRead,
    sink: &mut dyn Sink,
) -> Answer {
    let said = child.stderr.take().map(read_aside);
    let mut line = String::new();
    let passed = pass_on(out, &mut line, sink);
    let status = session.wait(&mut child);
    let said = said.and_then(|thread| thread.join().ok()).unwrap_or_default();
    Answer { status, line, said: text_of(&said), passed }
}

/// Reads standard error of a program meanwhile.
pub fn read_aside(mut stream: ChildStderr) -> JoinHandle<Vec<u8>> {
    thread::spawn(move || {
        let mut said = Vec::new();
        let _ = stream.read_to_end(&mut said);
        said
    })
}

/// Passes on what comes. The first line is told before that; one without an end is none.
fn pass_on(mut out: impl BufRead, line: &mut String, sink: &mut dyn Sink) -> Passed {
    let mut first = Vec::new();
    let _ = out.read_until(b'\n', &mut first);
    let Some(told) = first.strip_suffix(b"\n") else { return sink.take(&first) };
    *line = text_of(told);
    if line.starts_with("refused ") {
        return copy(out, &mut Silence);
    }
    match sink.take(&first) {
        Passed::Whole => copy(out, sink),
        passed => passed,
    }
}

/// Passes on all that still comes.
fn copy(mut out: impl BufRead, sink: &mut dyn Sink) -> Passed {
    loop {
        let length = match out.fill_buf() {
            Ok([]) | Err(_) => return Passed::Whole,
            Ok(part) => match sink.take(part) {
                Passed::Whole => part.len(),
                passed => return passed,
            },
        };
        out.consume(length);
    }
}

/// What the end of a program means for its answer.
pub fn judged(answer: Answer) -> Answer {
    let unwritten = Error::Unwritten.to_string();
    if answer.passed != Passed::Whole || answer.said.contains(&unwritten) {
        let passed = answer.passed;
        return Answer { passed, ..Answer::failed(2, &Error::Unwritten) };
    }
    match signal_in(answer.status) {
        Some(number) => Answer::failed(answer.status, &Error::Signal(number)),
        None => answer,
    }
}

/// A line on how far the program is, where there is one.
pub fn line_on(question: &crate::question::Question, graph: &crate::graph::Graph) -> Line {
    let files = graph.layer_files();
    let sizes = files.iter().map_while(|file| file.metadata().ok()).map(|file| file.len());
    question.progress.reading(&Arc::clone(&question.session.guard), sizes.sum())
}
