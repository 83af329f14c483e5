//! How a question is answered: what is asked of which program, what is said beside the answer, and
//! how all of that ends.

use std::env;
use std::fs::File;
use std::io::{BufReader, Write};
use std::path::{Path, PathBuf};
use std::process::{Command, Stdio};

use crate::commands::Takes;
use crate::diagnosis::Case;
use crate::error::Error;
use crate::fields::fields_of;
use crate::graph::{Graph, Kind, Place, Places};
use crate::json::{Object, Value};
use crate::known::{what_to_do, Explained, Known};
use crate::paths::{from_root, is_there};
use crate::program::{self, line_on, Answer, Call, Plain, Silence, Sink};
use crate::progress::Progress;
use crate::question::Question;
use crate::repository::{read_revisions, Repository};
use crate::ring::{self, Answered, Objects};
use crate::scratch::Scratch;
use crate::session::{Passed, Session, UNREAD};
use crate::text::{quoted, shown};
use crate::words::Words;

/// The status where there is no answer.
pub const NO_ANSWER: i32 = 128;

/// Why a question cannot be asked, and what may be done about that.
struct Trouble {
    error: Error,
    known: Box<Known>,
}

impl From<Error> for Trouble {
    fn from(error: Error) -> Self {
        let mut known = Known::default();
        if let Error::NoMomentFile(folder) = &error {
            known.advice =
                "see whether its disk is full, or let TMPDIR name another folder".to_owned();
            known.cure = vec![format!("df {}", quoted(folder))];
        }
        Trouble { error, known: Box::new(known) }
    }
}

/// Answers a question, and gives the status to end with.
pub fn answer(session: &Session, words: &Words) -> i32 {
    let scratch = Scratch::new(&session.guard);
    let mut repository = None;
    match ask(session, words, &scratch, &mut repository) {
        Ok(status) => status,
        Err(trouble) => leave(session, words, repository.as_deref(), &trouble),
    }
}

/// Says why there is no answer, also by an object.
fn leave(session: &Session, words: &Words, repository: Option<&Path>, trouble: &Trouble) -> i32 {
    let line = trouble.error.to_string();
    let explained = Explained::new(&line, words.word(), None, &trouble.known);
    session.say(&line);
    match explained.sentences() {
        sentences if !sentences.is_empty() => session.tell(&sentences),
        _ if !trouble.known.advice.is_empty() => {
            session.tell(&what_to_do(&trouble.known.advice, &trouble.known.cure));
        }
        _ => {}
    }
    if words.in_json() {
        let mut object = head_of(words, NO_ANSWER, repository);
        object.extend(explained.fields(&[]));
        if session.write(format!("{object}\n").as_bytes()) == Passed::Unread {
            return UNREAD;
        }
    }
    NO_ANSWER
}

/// What each object begins with.
fn head_of(words: &Words, status: i32, repository: Option<&Path>) -> Object {
    let mut head = Object::default();
    head.set("command", words.word());
    head.set("status", u64::try_from(status).unwrap_or(0));
    if let Some(path) = repository {
        head.set("repository", shown(path));
    }
    head
}

/// Asks a question. The folder by which an object names the repository is told as soon as it is
/// known.
fn ask(
    session: &Session,
    words: &Words,
    scratch: &Scratch,
    repository: &mut Option<PathBuf>,
) -> Result<i32, Trouble> {
    for folder in words.options.folders.iter().filter(|folder| !folder.as_os_str().is_empty()) {
        env::set_current_dir(folder).map_err(|_| Error::Closed(folder.clone()))?;
    }
    *repository = env::current_dir().ok();
    let found = Repository::find(session, &words.revisions)?;
    *repository = Some(found.repository.common.clone());
    let mut sink = sink_of(session, words, scratch)?;
    let named = words.options.object_dir.as_ref().filter(|path| !path.as_os_str().is_empty());
    let named = match named {
        Some(path) => Some(from_root(path).ok_or_else(|| Error::Closed(path.clone()))?),
        None => None,
    };
    let mut question = Question {
        session,
        words,
        places: Places::find(session, &found.repository, named.as_deref()),
        repository: found.repository,
        ids: Vec::new(),
        scratch,
        progress: Progress::find(session, &words.options),
    };
    question.ids = match found.ids {
        Some(ids) => ids,
        None => read_revisions(session, &words.revisions)
            .map_err(|error| of_revisions(&question, error))?,
    };
    let case = answer_question(&question, sink.as_mut())?;
    Ok(finish(case, sink.as_mut()))
}

/// Where the lines of an answer go.
fn sink_of<'a>(
    session: &'a Session,
    words: &Words,
    scratch: &'a Scratch,
) -> Result<Box<dyn Sink + 'a>, Error> {
    Ok(if words.in_json() {
        Box::new(LinesFile::begin(scratch)?)
    } else if words.options.quiet {
        Box::new(Silence)
    } else {
        Box::new(Plain(session))
    })
}

/// What to do about names that name no commit.
fn of_revisions(question: &Question, error: Error) -> Trouble {
    let mut known = Known::default();
    if matches!(error, Error::LostObject(_)) {
        known.advice = "see which objects are missing or damaged".to_owned();
        known.cure = vec![format!("{} fsck", question.git_here())];
    }
    Trouble { error, known: Box::new(known) }
}

/// The case of the answer, most of which was written.
fn answer_question<'a>(question: &'a Question<'a>, sink: &mut dyn Sink) -> Result<Case<'a>, Error> {
    let program = question.session.program(question.command().tool)?;
    match question.words.word() {
        "write" => return crate::write::write(question, sink),
        "show" => return crate::show::show(question, &program, sink),
        _ => {}
    }
    let graph = question.places.graph();
    if let Some(line) = graph.refused_by_git(question.repository.hash) {
        return Ok(Case::new(question, graph, Answer::of(1, line)));
    }
    match question.words.word() {
        "list" => Ok(crate::list::list(question, &program)),
        "ask" => crate::ask::ask(question, &program),
        "verify" => crate::verify::verify(question, sink),
        _ => ask_program(question, Asked::own(question, &program), sink),
    }
}

/// What a program is asked.
#[derive(Clone, Copy)]
pub struct Asked<'a> {
    pub program: &'a Path,
    /// The word by which it is asked, and the one for which the tables have rows.
    pub word: &'static str,
    pub of: &'static str,
    /// Whether a file is asked about by itself.
    pub alone: bool,
}

impl<'a> Asked<'a> {
    /// What the command of the question asks.
    pub fn own(question: &Question, program: &'a Path) -> Self {
        let of = question.words.word();
        let options = question.options();
        let word = match of {
            "merge-base" if !options.verbose && !question.words.in_json() => "merge-base-ids",
            word => word,
        };
        Asked { program, word, of, alone: false }
    }

    /// Another word.
    pub fn other(program: &'a Path, word: &'static str) -> Self {
        Asked { program, word, of: word, alone: false }
    }
}

/// Asks a program about the commit-graph that is there, and once more where it is another one after
/// a refusal: somebody may have written it meanwhile.
pub fn ask_program<'a>(
    question: &'a Question<'a>,
    asked: Asked,
    sink: &mut dyn Sink,
) -> Result<Case<'a>, Error> {
    const TRIES: usize = 3;
    for _ in 0..TRIES {
        let graph = question.places.graph();
        let before = graph.identity();
        let alone = is_alone(question, &asked, &graph);
        let place = graph.place(question.scratch, alone)?;
        let (answer, newer) = ask_at(question, asked, &graph, &place, sink);
        let mut case = Case::new(question, graph, answer);
        case.place = Some(place);
        case.newer = newer;
        case.asked = asked.of;
        if !case.answer.is_refused() || question.places.graph().identity() == before {
            return Ok(case);
        }
    }
    let mut case = Case::new(
        question,
        question.places.graph(),
        Answer::failed(NO_ANSWER, &Error::WrittenAnew),
    );
    case.asked = asked.of;
    Ok(case)
}

/// Asks a program about the commit-graph at a place, and tells how many commits were read besides,
/// where the question is also about commits that the commit-graph lacks.
fn ask_at(
    question: &Question,
    asked: Asked,
    graph: &Graph,
    place: &Place,
    sink: &mut dyn Sink,
) -> (Answer, Option<u64>) {
    let is_newer = question.words.is_about_newer();
    let mut words = vec![asked.word];
    words.extend(question.options().unchecked.then_some("--unchecked"));
    words.extend(is_newer.then_some("--newer"));
    words.extend((!is_newer || graph.kind != Kind::None).then_some(place.graph));
    words.extend(question.ids.iter().map(String::as_str));
    let asks = question.words.word() == "ask";
    let (program, folder) = (asked.program, place.folder.as_path());
    let call = Call { program, words: &words, folder, input: None, asks };
    let (session, line) = (question.session, line_on(question, graph));
    if is_newer {
        let Answered { answer, read } =
            ring::ask(session, &call, Objects::Commits, sink, line, question.progress);
        (answer, Some(read))
    } else {
        (program::ask(session, &call, sink, line), None)
    }
}

/// Whether a file is named by itself, and not by the folder in which a chain may be beside it.
fn is_alone(question: &Question, asked: &Asked, graph: &Graph) -> bool {
    match question.words.word() {
        "verify" | "check" | "distinct" | "show" => true,
        "ask" => asked.alone,
        _ => !is_there(&graph.chain_file()),
    }
}

/// Says all that is said beside the answer, and gives the status to end with.
fn finish(mut case: Case, sink: &mut dyn Sink) -> i32 {
    if case.answer.passed == Passed::Unread {
        return UNREAD;
    }
    allow_none(&mut case);
    let words = case.question.words;
    if case.answer.is_refused() && !words.options.quiet && !words.options.json {
        let line = case.answer.line.clone();
        case.write_text(&line, sink);
    }
    look_for_repeated(&mut case);
    look_for_other_parents(&mut case);
    look_for_many(&mut case);
    end(case)
}

/// Takes it for right that there is no commit-graph, where `--if-exists` says so. Layers whose
/// chain file is lost are not right.
fn allow_none(case: &mut Case) {
    let is_unopened = matches!(case.answer.line.as_str(), "refused open 1" | "refused open 2");
    if case.question.options().if_exists
        && case.graph.kind == Kind::None
        && is_unopened
        && !case.graph.layers_beside().iter().any(|path| path.exists())
        && case.question.places.closed().is_none()
    {
        case.answer = Answer { passed: case.answer.passed, ..Answer::of(0, "") };
        case.known.has_none = true;
    }
}

/// Sees to it that it is said where Git's answer may be another, since a commit stands in two
/// layers of a chain. The program `graphtool` tells whether one does, if it is there.
fn look_for_repeated(case: &mut Case) {
    let line = case.answer.line.as_str();
    let is_digit = |line: &str| {
        line.starts_with(|first: char| first.is_ascii_digit() || ('a'..='f').contains(&first))
    };
    let may_differ = match case.question.words.word() {
        "is-ancestor" => line == "no",
        "walk" => line == "none",
        "merge-base" => line == "none" || line.starts_with("base") || is_digit(line),
        "ask" => line.starts_with("ok"),
        _ => false,
    };
    if case.question.options().unchecked || !may_differ || !case.graph.has_layers() {
        return;
    }
    let session = case.question.session;
    if let (Some(lister), Some(place)) = (session.lister(), &case.place) {
        let mut distinct = Command::new(lister);
        distinct.args(["distinct", place.graph]).current_dir(&place.folder).stdin(Stdio::null());
        let (_, out) = session.output(distinct.stderr(Stdio::null()));
        if out.starts_with(b"refused verify 11 ") {
            case.beside = Some(Error::MayDiffer);
        }
    }
}

/// Says where Git's own answers go by other parents than those that stand in the commits.
fn look_for_other_parents(case: &mut Case) {
    let (line, status) = (case.answer.line.as_str(), case.answer.status);
    let is_answer = match case.question.words.word() {
        "is-ancestor" | "walk" | "merge-base" => matches!(status, 0 | 1),
        "ask" => status == 0,
        _ => false,
    };
    let is_refused = status == 1 && (line.starts_with("refused ") || line.starts_with("unknown"));
    if is_answer && !is_refused && !case.question.options().quiet {
        for sentence in case.question.other_parents() {
            case.warn(&sentence);
        }
    }
}

/// Says that a commit-graph makes answers fast, where many commits were read that it lacks.
fn look_for_many(case: &mut Case) {
    let read = case.newer.unwrap_or(0);
    if read < ring::MANY || case.question.options().quiet {
        return;
    }
    let lacks = match case.graph.kind {
        Kind::None => "there is no commit-graph",
        _ => "the commit-graph lacks them",
    };
    let mut sentence = format!("{read} commits were read one by one, as {lacks}");
    if let Some(write) = case.cures().write_of_own() {
        sentence += &format!("; this makes it fast: {write}");
    }
    case.warn(&sentence);
}

/// Says what became of the answer, and gives the status to end with.
fn end(mut case: Case) -> i32 {
    let (session, words) = (case.question.session, case.question.words);
    let is_unwritten = case.answer.line == Error::Unwritten.to_string();
    if words.in_json() && words.word() != "list" && is_unwritten && case.question.scratch.is_full()
    {
        case.answer.said.clear();
        case.refuse_scratch();
    }
    let answered = case.answer.line.clone();
    if answered == "no" || answered == "none" {
        case.answer.line.clear();
    }
    if case.answer.status != 0 || case.beside.is_some() {
        case.diagnose();
    }
    if case.answer.status == 2 && answered.is_empty() {
        case.answer.fail(2, &Error::UnknownWords);
    }
    let mut status = ending(&case, &answered);
    if words.in_json() {
        match write_object(&case, &answered, status) {
            Passed::Whole => {}
            Passed::Unread => return UNREAD,
            Passed::Failed => {
                status = NO_ANSWER;
                case.answer = Answer::failed(2, &Error::Unwritten);
                case.beside = None;
                case.known = Known::default();
            }
        }
    }
    session.tell(&case.answer.said);
    if case.answer.status != 0 || case.beside.is_some() {
        session.tell(&case.explained().sentences());
    }
    status
}

/// The status to end with: 1 says that the commit-graph is wrong, or the answer no or none. A
/// command that takes no revision checks the commit-graph, but for those that list commits or
/// answer questions.
fn ending(case: &Case, answered: &str) -> i32 {
    let status = case.answer.status;
    let unanswered = status.max(NO_ANSWER);
    let is_wrong = if case.known.is_absent { unanswered } else { 1 };
    match (case.question.words.word(), case.question.command().takes) {
        _ if status == 0 => 0,
        _ if status == 1 && (answered == "no" || answered == "none") => 1,
        ("list" | "ask", _) => unanswered,
        ("write", _) => is_wrong,
        (_, Takes::Ids(0)) if answered.starts_with("refused") => is_wrong,
        _ => unanswered,
    }
}

/// Writes the last object, which has what the case tells.
fn write_object(case: &Case, answered: &str, status: i32) -> Passed {
    let words = case.question.words;
    let mut object = head_of(words, status, Some(&case.question.repository.common));
    match case.graph.kind {
        _ if case.known.has_none => object.set("commit_graph", Value::Null),
        Kind::None => {}
        _ if !case.has_graph => {}
        _ => object.set("commit_graph", shown(case.graph.main_file())),
    }
    if !case.question.ids.is_empty() {
        object.set("ids", case.question.ids.clone());
    }
    if let Some(read) = case.newer {
        object.set("newer", read);
    }
    let is_answer =
        case.answer.status == 0 || (case.answer.status == 1 && matches!(answered, "no" | "none"));
    if !case.known.has_none && (is_answer || words.word() == "show") {
        object.extend(answer_fields(case));
    }
    object.extend(case.explained().fields(&case.warnings));
    case.question.session.write(format!("{object}\n").as_bytes())
}

/// The fields of an answer. What `show` has to say may stand beside a refusal.
fn answer_fields(case: &Case) -> Object {
    let word = case.question.words.word();
    if matches!(word, "list" | "show") {
        return case.fields.clone();
    }
    let lines = case.question.scratch.path(LINES).ok().and_then(|path| File::open(path).ok());
    lines.map_or_else(Object::default, |file| fields_of(word, BufReader::new(file)))
}

impl Case<'_> {
    /// What the tables and this case say of the line.
    fn explained(&self) -> Explained<'_> {
        let line = if self.answer.status == 0 { "" } else { self.answer.line.as_str() };
        Explained::new(line, self.asked, self.beside.as_ref(), &self.known)
    }

    /// Writes a line, or holds it back for an object.
    pub fn write_text(&mut self, text: &str, sink: &mut dyn Sink) {
        self.write(&crate::text::bytes_of(&format!("{text}\n")), sink);
    }

    /// Writes a line, of which an object has fields by itself.
    pub fn write_shown(&mut self, text: &str, sink: &mut dyn Sink) {
        if !self.question.words.in_json() {
            self.write_text(text, sink);
        }
    }

    /// Writes bytes, and notes where that fails.
    pub fn write(&mut self, bytes: &[u8], sink: &mut dyn Sink) {
        match sink.take(bytes) {
            Passed::Whole => {}
            Passed::Unread => self.question.session.guard.exit(UNREAD),
            Passed::Failed if self.question.words.in_json() && self.question.scratch.is_full() => {
                self.refuse_scratch();
            }
            Passed::Failed => self.answer.fail(2, &Error::Unwritten),
        }
    }
}

/// The name of the file in which lines are held back.
const LINES: &str = "lines";

/// Holds lines back until it is known how the command ends.
struct LinesFile<'a> {
    scratch: &'a Scratch,
    file: File,
}

impl<'a> LinesFile<'a> {
    /// Begins the file, which has to take a line.
    fn begin(scratch: &'a Scratch) -> Result<Self, Error> {
        let mut file = scratch.create(LINES)?;
        file.write_all(b"\n").map_err(|_| scratch.no_file())?;
        Ok(LinesFile { file: scratch.create(LINES)?, scratch })
    }
}

impl Sink for LinesFile<'_> {
    fn begin(&mut self) {
        if let Ok(file) = self.scratch.create(LINES) {
            self.file = file;
        }
    }

    fn take(&mut self, bytes: &[u8]) -> Passed {
        match self.file.write_all(bytes) {
            Ok(()) => Passed::Whole,
            Err(_) => Passed::Failed,
        }
    }
}
