//! `git cgraph ask`: lets `historytool` answer the questions on standard input, and says what
//! refusals among the answers mean.

use std::path::Path;
use std::process::Stdio;
use std::sync::mpsc::{self, Receiver, Sender};
use std::thread;

use crate::answers::{ask_program, Asked};
use crate::diagnosis::Case;
use crate::error::Error;
use crate::graph::{Kind, Stamp};
use crate::known::Explained;
use crate::paths::is_there;
use crate::program::{Answer, Sink};
use crate::question::Question;
use crate::scratch::Scratch;
use crate::session::{Passed, Session};
use crate::text::text_of;

/// Lets the program answer. The folder is opened, so that `reload` finds the chain that takes the
/// place of a file. Where that is refused, the file is asked about by itself: of the folder the
/// program would say that there is no chain. Of a commit-graph that is refused nothing is read.
pub fn ask<'a>(question: &'a Question<'a>, historytool: &Path) -> Result<Case<'a>, Error> {
    thread::scope(|scope| {
        let (sender, lines) = mpsc::channel();
        scope.spawn(move || tell_refusals(question, historytool, &lines));
        let mut answers =
            Answers { session: question.session, sender, rest: Vec::new(), is_first: true };
        let mut case = ask_program(question, Asked::own(question, historytool), &mut answers)?;
        let is_in_folder = case.place.as_ref().is_some_and(|place| place.graph == "info");
        if is_in_folder
            && case.graph.kind == Kind::File
            && case.answer.line.starts_with("refused open ")
            && !is_there(&case.graph.chain_file())
        {
            let asked = Asked { alone: true, ..Asked::own(question, historytool) };
            case = ask_program(question, asked, &mut answers)?;
        }
        if case.answer.status == 1 && case.answer.line.starts_with("ok ") {
            case.answer.fail(1, &Error::QuestionsUnread);
        }
        Ok(case)
    })
}

/// Passes on answers at once, and tells of those of which something may be said.
struct Answers<'a> {
    session: &'a Session,
    sender: Sender<String>,
    /// The beginning of a line whose end comes later.
    rest: Vec<u8>,
    is_first: bool,
}

impl Sink for Answers<'_> {
    fn begin(&mut self) {
        self.rest.clear();
        self.is_first = true;
    }

    fn take(&mut self, bytes: &[u8]) -> Passed {
        let passed = self.session.write(bytes);
        if std::mem::take(&mut self.is_first) {
            return passed;
        }
        for &byte in bytes {
            if byte != b'\n' {
                self.rest.push(byte);
                continue;
            }
            if self.rest.starts_with(b"refused ") || self.rest.starts_with(b"ok ") {
                let _ = self.sender.send(text_of(&self.rest));
            }
            self.rest.clear();
        }
        passed
    }
}

/// Says what refusals among answers mean, each once for the same commit-graph. Of a question that
/// is none, of one for which memory ran out, and of the end of the questions, nothing is said here.
fn tell_refusals(question: &Question, historytool: &Path, lines: &Receiver<String>) {
    let mut before: Option<(String, Option<Stamp>)> = None;
    for line in lines {
        if line == "refused question" || line == "refused walk" || line.starts_with("refused read ")
        {
            continue;
        }
        if !line.starts_with("refused ") {
            before = None;
            continue;
        }
        let stamp = (!question.options().unchecked).then(|| question.places.graph().stamp());
        let now = Some((line.clone(), stamp));
        if now != before {
            tell_refusal(question, historytool, &line);
        }
        before = now;
    }
}

/// Says what a refusal means. Where the file of the commit-graph is refused, the program speaks of
/// the chain, which is not there: what is wrong with the file is asked of it by itself. Files of a
/// moment have a folder of their own.
fn tell_refusal(question: &Question, historytool: &Path, line: &str) {
    let session = question.session;
    let scratch = Scratch::new(&session.guard);
    let own = Question {
        session,
        words: question.words,
        repository: question.repository.clone(),
        ids: Vec::new(),
        places: question.places.clone(),
        scratch: &scratch,
        progress: question.progress,
    };
    let still = ": the commit-graph that was read before still counts";
    let still = if question.options().unchecked { "" } else { still };
    session.say(&format!("the answer is '{line}'{still}"));
    let mut case = Case::new(&own, own.places.graph(), Answer::of(1, line));
    if case.graph.kind == Kind::File && !is_there(&case.graph.chain_file()) {
        case.place = case.graph.place(&scratch, true).ok();
        case.answer.line = by_itself(&case, historytool).unwrap_or_default();
        if case.answer.line != line {
            session.say(&format!("the file by itself gets '{}'", case.answer.line));
        }
    } else {
        case.place = case.graph.place(&scratch, false).ok();
    }
    if case.answer.is_refused() {
        case.diagnose();
        session.tell(&case.answer.said);
        session.tell(&Explained::new(&case.answer.line, "ask", None, &case.known).sentences());
    } else {
        session.say("it is another one now: ask 'reload' again");
    }
    scratch.remove();
}

/// What the program says of the file by itself.
fn by_itself(case: &Case, historytool: &Path) -> Option<String> {
    let place = case.place.as_ref()?;
    let mut tool = std::process::Command::new(historytool);
    tool.args(["ask", place.graph]).current_dir(&place.folder);
    let (_, out) = case.question.session.output(tool.stdin(Stdio::null()).stderr(Stdio::null()));
    text_of(&out).lines().next().map(str::to_owned)
}
