//! `git cgraph write`: writes the commit-graph.
//!
//! `git rev-list` lists the commits that references lead to, `git cat-file` writes them, and
//! `historytool write` makes a file of them. Both programs check it, with the layers on which it
//! stands, and only then it gets its name, in one step: before that the old commit-graph is as it
//! was. The bytes go into the lock of the file, and the lines of a chain into that of the chain
//! file.

mod making;
mod placing;
mod standing;

use std::fs::{self, File};
use std::os::unix::fs::symlink;
use std::path::PathBuf;

use crate::commands::Tool;
use crate::cures::is_own;
use crate::diagnosis::Case;
use crate::error::Error;
use crate::graph::{Graph, Kind, Place};
use crate::known::what_to_do;
use crate::locks::Lock;
use crate::program::{Answer, Sink};
use crate::progress::Line;
use crate::question::Question;
use crate::target::{Halt, Target};
use crate::text::shown;

const NEW: &str = "new";
const CHAIN_FILE: &str = "commit-graph-chain";
const NO_FILE: &str = "no file of a moment can be made";

/// Writes the commit-graph, in one file or, with `--split`, a layer of it.
pub fn write<'a>(question: &'a Question<'a>, sink: &mut dyn Sink) -> Result<Case<'a>, Error> {
    let graphtool = question.session.program(Tool::Graphtool)?;
    let historytool = question.session.program(Tool::Historytool)?;
    let mut case = Case::new(question, question.places.graph(), Answer::of(0, ""));
    case.has_graph = false;
    let locked = Target::find(question).and_then(|target| Ok((target.lock(question)?, target)));
    match locked {
        Err(halt) => take_halt(&mut case, halt),
        Ok((locks, target)) => {
            let scratch = question.scratch.folder()?.to_owned();
            let programs = (graphtool, historytool);
            Writer::new(question, target, locks, programs, scratch).run(&mut case, sink);
        }
    }
    Ok(case)
}

/// Notes why nothing is written.
fn take_halt(case: &mut Case, halt: Halt) {
    match halt {
        Halt::Nothing(reason) => case.warn(&format!("{reason}: nothing is written")),
        Halt::Refused(line) => {
            case.answer = Answer { said: case.answer.said.clone(), ..Answer::of(1, line) }
        }
        Halt::Failed(failure) if failure.error == Error::ScratchFull => case.refuse_scratch(),
        Halt::Failed(failure) => {
            case.answer.fail(failure.status, &failure.error);
            case.known.place = failure.place;
            case.known.advice = failure.advice;
            case.known.cure = failure.cure;
        }
    }
}

/// A layer that stands: its commits, and its checksum.
struct Layer {
    commits: u64,
    checksum: String,
}

struct Writer<'a> {
    question: &'a Question<'a>,
    target: Target,
    graphtool: PathBuf,
    historytool: PathBuf,
    /// The folder for files of a moment.
    scratch: PathBuf,
    single: Lock,
    chain: Option<Lock>,
    /// The layers that stand, the lowest first, and how many of them stay as they are.
    layers: Vec<Layer>,
    kept: usize,
    /// The commits that are written.
    count: u64,
    /// Where a program found what it was asked about.
    place: Option<Place>,
    /// What is said of filters that are not there any more.
    dropped: Option<&'static str>,
    line: Option<Line>,
}

/// Where the ids of the commits come from.
enum Listed {
    ByReferences,
    /// The file of those that are new.
    New,
}

impl<'a> Writer<'a> {
    fn new(
        question: &'a Question<'a>,
        target: Target,
        (single, chain): (Lock, Option<Lock>),
        (graphtool, historytool): (PathBuf, PathBuf),
        scratch: PathBuf,
    ) -> Self {
        Writer {
            question,
            target,
            graphtool,
            historytool,
            scratch,
            single,
            chain,
            layers: Vec::new(),
            kept: 0,
            count: 0,
            place: None,
            dropped: None,
            line: None,
        }
    }

    /// Writes, gives the locks back, and tells what was written, or why nothing was.
    fn run(mut self, case: &mut Case, sink: &mut dyn Sink) {
        case.graph = self.question.places.graph();
        case.has_graph = true;
        let written = self.write(&case.graph);
        case.place = self.place.take();
        if let Some(line) = self.line.take() {
            line.end();
        }
        if let Err(halt) = written {
            self.count = 0;
            take_halt(case, halt);
        }
        self.give_locks_back();
        if case.answer.status == 0 {
            case.graph = self.question.places.graph();
            self.tell(case, sink);
        }
    }

    fn write(&mut self, graph: &Graph) -> Result<(), Halt> {
        if self.question.options().split {
            self.write_layer(graph)
        } else {
            self.write_file(graph)
        }
    }

    /// Writes a commit-graph of one file.
    fn write_file(&mut self, graph: &Graph) -> Result<(), Halt> {
        if graph.has_filters() {
            self.drop_filters("the changed-path filters of the commit-graph are dropped")?;
        }
        self.begin_new()?;
        let file = self.scratch.join(NEW).join("commit-graph");
        let _ = symlink(&self.single.path, file);
        self.make_file(&Listed::ByReferences, None)?;
        self.check_new("new/commit-graph")?;
        self.exchange_file()
    }

    /// Writes a layer of the commits that the commit-graph lacks, on top of the lowest layers. The
    /// others are taken in.
    fn write_layer(&mut self, graph: &Graph) -> Result<(), Halt> {
        let (mut listed, mut below) = (Listed::ByReferences, None);
        if graph.kind != Kind::None {
            self.read_layers(graph)?;
            let new = self.find_new()?;
            if new.is_empty() {
                return Err(Halt::Nothing(
                    "the commit-graph has all commits that references lead to",
                ));
            }
            if graph.has_filters() {
                self.drop_filters("the new layer has no changed-path filters")?;
            }
            self.choose_layers(graph, new.len() as u64);
            self.take_in(new)?;
            listed = Listed::New;
            below = (self.kept > 0).then_some(NEW);
        }
        self.begin_new()?;
        if self.kept > 0 {
            self.link_layers(graph)?;
        }
        self.make_file(&listed, below)?;
        let checksum = self.add_layer()?;
        self.check_new(NEW)?;
        self.exchange_chain(graph, &checksum)
    }

    /// Notes that filters are not there any more, or writes nothing where they are to stay.
    fn drop_filters(&mut self, sentence: &'static str) -> Result<(), Halt> {
        if self.question.options().keep_filters {
            return Err(self.refuse_filters());
        }
        self.dropped = Some(sentence);
        Ok(())
    }

    /// The command by which Git writes filters, with an option or none.
    fn filters_by_git(&self, option: &str) -> String {
        let git = self.question.git_there();
        let option = if self.question.options().split { option } else { "" };
        format!("{git} commit-graph write --reachable{option} --changed-paths")
    }

    /// Nothing is written, since filters would go.
    fn refuse_filters(&self) -> Halt {
        let (advice, cure) = if is_own(self.question, &self.target.folder.join("info")) {
            let advice = "have Git write it, which keeps them".to_owned();
            (advice, vec![self.filters_by_git(" --split")])
        } else {
            let keeper = shown(&self.target.folder);
            let advice =
                format!("ask whoever keeps '{keeper}' to have Git write it, which keeps them");
            (advice, Vec::new())
        };
        Halt::failed(Error::HasFilters, String::new(), advice, cure)
    }

    /// Begins a folder of links, in which the programs find what is written, and the layers below
    /// it.
    fn begin_new(&self) -> Result<(), Halt> {
        let folder = self.scratch.join(NEW);
        let begun = fs::create_dir(&folder).and_then(|()| File::create(folder.join(CHAIN_FILE)));
        begun.map(|_| ()).map_err(|_| self.refuse_unread(NO_FILE))
    }

    /// Nothing is written, for a reason, or since there was no room for files of a moment.
    fn refuse_unread(&self, reason: &str) -> Halt {
        if self.question.scratch.is_full() {
            return Halt::plain(128, Error::ScratchFull);
        }
        Halt::unwritten(reason.to_owned(), "", Vec::new())
    }

    /// Git could not list the commits, or there was no room for the list.
    fn refuse_listing(&self) -> Halt {
        let is_full = self.question.scratch.is_full();
        Halt::plain(128, if is_full { Error::ScratchFull } else { Error::Unlisted })
    }

    /// Says how many commits were written, and in how many layers they stand with those below, and
    /// what is lost.
    fn tell(&self, case: &mut Case, sink: &mut dyn Sink) {
        let mut text = format!("ok commits {}", self.count);
        if self.question.options().split && self.count > 0 {
            text += &format!(" layers {}", self.kept + 1);
        }
        case.write_text(&text, sink);
        if let Some(sentence) = self.dropped.filter(|_| self.count > 0) {
            self.tell_dropped(case, sentence);
        }
    }

    /// Says which filters are not there any more, and how Git writes them in this repository.
    fn tell_dropped(&self, case: &mut Case, sentence: &str) {
        case.warn(sentence);
        if self.target.is_own(self.question) {
            case.known.advice = "have Git write it again, with filters".to_owned();
            case.known.cure = vec![self.filters_by_git(" --split=replace")];
        } else {
            let keeper = shown(&self.target.folder);
            case.known.advice =
                format!("ask whoever keeps '{keeper}' to have Git write it again, with filters");
        }
        self.question.session.tell(&what_to_do(&case.known.advice, &case.known.cure));
    }
}
