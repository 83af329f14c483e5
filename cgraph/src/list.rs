//! `git cgraph list`: lists each layer of the commit-graph, the lowest first.

use std::fs::File;
use std::path::Path;

use crate::diagnosis::Case;
use crate::error::Error;
use crate::fields::Listing;
use crate::graph::{Graph, Kind};
use crate::json::Object;
use crate::program::{ask, line_on, Answer, Call, Plain, Silence, Sink};
use crate::question::Question;
use crate::session::{Passed, Session};
use crate::system::{may, Right};
use crate::text::text_of;

/// Lists the layers, and once more where the commit-graph is another one after a refusal and
/// nothing is written yet.
pub fn list<'a>(question: &'a Question<'a>, graphtool: &Path) -> Case<'a> {
    const TRIES: usize = 3;
    let mut case = Case::new(question, question.places.graph(), Answer::of(0, ""));
    for _ in 0..TRIES {
        case.graph = question.places.graph();
        let before = case.graph.identity();
        let mut lister = Lister {
            question,
            graphtool,
            number: 0,
            listed: 0,
            answer: Answer::of(1, "refused open 2"),
        };
        lister.list_all(&case.graph);
        case.listed = Some(lister.number);
        case.answer = lister.answer;
        if !case.answer.is_refused() {
            case.fields.set("layers", lister.number as u64);
            case.fields.set("commits", lister.listed);
            return case;
        }
        let is_same = question.places.graph().identity() == before;
        if is_same {
            return case;
        }
        if lister.number > 0 {
            break;
        }
    }
    case.answer = Answer::failed(128, &Error::WrittenAnew);
    case
}

struct Lister<'a> {
    question: &'a Question<'a>,
    graphtool: &'a Path,
    /// How many layers were listed, and how many commits.
    number: usize,
    listed: u64,
    answer: Answer,
}

impl Lister<'_> {
    /// Lists the layers, as far as they can be listed.
    fn list_all(&mut self, graph: &Graph) {
        let files = match graph.kind {
            Kind::None => return,
            Kind::Chain if !is_open(&graph.chain_file()) => return,
            _ => graph.layer_files(),
        };
        if files.is_empty() {
            self.answer = Answer::of(1, "refused open 6 graph 1");
        }
        for file in files {
            let opened = is_open(&file).then(|| File::open(&file).ok()).flatten();
            let Some(opened) = opened else {
                self.answer = Answer::of(1, "refused open 2");
                return;
            };
            self.answer = self.list_one(opened, graph);
            if self.answer.status != 0 {
                return;
            }
            self.number += 1;
            let count = self.answer.line.rsplit(' ').next().and_then(|count| count.parse().ok());
            self.listed += count.unwrap_or(0);
        }
    }

    /// Lists the layer in a file.
    fn list_one(&self, file: File, graph: &Graph) -> Answer {
        let (session, words) = (self.question.session, self.question.words);
        let folder = Path::new(".");
        let call = Call {
            program: self.graphtool,
            words: &["list"],
            folder,
            input: Some(file),
            asks: false,
        };
        let line = line_on(self.question, graph);
        if words.options.quiet {
            ask(session, &call, &mut Silence, line)
        } else if words.options.json {
            let listing = Listing::of_layer(self.number as u64, self.listed);
            let mut objects = Objects { session, listing, rest: Vec::new() };
            ask(session, &call, &mut objects, line)
        } else {
            ask(session, &call, &mut Plain(session), line)
        }
    }
}

/// Whether a file can be read.
fn is_open(path: &Path) -> bool {
    path.is_file() && may(path, Right::Read)
}

/// Writes objects of the lines of a layer.
struct Objects<'a> {
    session: &'a Session,
    listing: Listing,
    /// The beginning of a line whose end comes later.
    rest: Vec<u8>,
}

impl Sink for Objects<'_> {
    fn begin(&mut self) {
        self.listing = Listing::of_layer(self.listing.layer, self.listing.below);
        self.rest.clear();
    }

    fn take(&mut self, bytes: &[u8]) -> Passed {
        self.rest.extend_from_slice(bytes);
        let Some(end) = self.rest.iter().rposition(|&byte| byte == b'\n') else {
            return Passed::Whole;
        };
        let lines: Vec<u8> = self.rest.drain(..=end).collect();
        let lines = text_of(&lines);
        let objects = lines.lines().filter_map(|line| self.listing.object_of(line));
        let text: String = objects.map(|object: Object| format!("{object}\n")).collect();
        self.session.write(text.as_bytes())
    }
}
