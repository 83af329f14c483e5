//! What is wrong where a line was refused: which file it is, why it cannot be read, and by which
//! commands all becomes right.

use std::path::{Path, PathBuf};

use crate::cures::{Cures, Wish};
use crate::error::Error;
use crate::graph::{Graph, Kind, Place};
use crate::json::Object;
use crate::known::Known;
use crate::layers::{self, AtPosition};
use crate::paths::obstacle;
use crate::program::Answer;
use crate::question::Question;
use crate::refusals::{number_after, ANEW};
use crate::scratch::Scratch;
use crate::text::{quoted, shown, word_of};

/// A line of which something has to be found out.
pub struct Case<'a> {
    pub question: &'a Question<'a>,
    pub graph: Graph,
    /// Whether the commit-graph was looked for.
    pub has_graph: bool,
    /// Where the program found the commit-graph.
    pub place: Option<Place>,
    /// The word by which the program was asked.
    pub asked: &'static str,
    pub answer: Answer,
    /// The number of the layer that was listed last.
    pub listed: Option<usize>,
    /// How many commits that the commit-graph lacks were read for the answer, where any may be.
    pub newer: Option<u64>,
    /// Whether something is said beside the answer.
    pub beside: Option<Error>,
    pub known: Known,
    /// What was said beside the answer, for an object.
    pub warnings: Vec<String>,
    /// The fields of the answer, where they do not come from its lines.
    pub fields: Object,
}

impl<'a> Case<'a> {
    /// The case of an answer.
    pub fn new(question: &'a Question<'a>, graph: Graph, answer: Answer) -> Self {
        Case {
            question,
            graph,
            has_graph: true,
            place: None,
            asked: question.words.word(),
            answer,
            listed: None,
            newer: None,
            beside: None,
            known: Known::default(),
            warnings: Vec::new(),
            fields: Object::default(),
        }
    }

    /// Says a sentence beside the answer.
    pub fn warn(&mut self, sentence: &str) {
        self.question.session.say(sentence);
        self.warnings.push(sentence.to_owned());
    }

    /// Notes that the folder for files of a moment takes no more.
    pub fn refuse_scratch(&mut self) {
        let parent = Scratch::parent();
        self.answer.fail(128, &Error::ScratchFull);
        self.known.place = format!("it was to stand in the folder '{}'", shown(&parent));
        self.known.advice =
            "see whether the disk of this folder is full, or let TMPDIR name another folder"
                .to_owned();
        self.known.cure = vec![format!("df {}", quoted(parent))];
    }

    /// Finds out what is known of the line.
    pub fn diagnose(&mut self) {
        self.known.file = None;
        self.known.cause.clear();
        if self.question.words.word() == "write" {
            self.diagnose_write();
        } else {
            self.diagnose_line();
        }
        self.name_commit_at();
    }

    /// The same of all commands but `write`.
    fn diagnose_line(&mut self) {
        let line = self.answer.line.clone();
        match line.as_str() {
            "refused open 7" | "refused verify 10" | "refused dates 6" | "refused filters 10"
            | "refused walk" => self.known.is_absent = true,
            "refused open 1" | "refused open 2" | "refused open 3" => self.diagnose_opening(),
            "refused git 1" => {
                self.name_hashes();
                self.name_file();
                self.advise_anew();
            }
            line if line.starts_with("refused read ") => self.known.is_absent = true,
            line if line.starts_with("refused objects ") => self.diagnose_object(),
            line if line.starts_with("refused newer ") => self.diagnose_newer(),
            line if line.starts_with("refused paths ") => self.diagnose_paths(),
            line if line.starts_with("refused ") => {
                self.name_file();
                self.advise_anew();
            }
            line if line.starts_with("unknown") => self.diagnose_unknown(),
            line if line == Error::Unlisted.to_string() => self.diagnose_listing("--all"),
            _ if self.beside.is_some() => self.advise_anew(),
            _ => {}
        }
    }

    /// Finds the id of the commit at the position that a refusal names, where the layers can be
    /// listed.
    pub fn name_commit_at(&mut self) {
        if self.known.commit.is_empty() && self.answer.is_refused() {
            if let Some(found) = self.at_position() {
                self.known.commit = found.commit;
            }
        }
    }

    /// What stands at the position that a refusal names.
    fn at_position(&self) -> Option<AtPosition> {
        let position = number_after(&self.answer.line, " position ")?.parse().ok()?;
        layers::at_position(self.question.session, &self.place.as_ref()?.path(), position)
    }

    /// Looks at the commit-graph for commands.
    pub fn cures(&self) -> Cures<'_> {
        Cures::new(self.question, &self.graph, self.known.file.as_deref())
    }

    /// Says how the commit-graph becomes right.
    pub fn advise_anew(&mut self) {
        let mut known = std::mem::take(&mut self.known);
        let file = known.file.clone();
        let cures = Cures::new(self.question, &self.graph, file.as_deref());
        cures.advise_anew(&mut known, &self.answer.line);
        self.known = known;
    }

    /// Says which hashes the ids of the commit-graph and of the repository have.
    fn name_hashes(&mut self) {
        let name = self.graph.hash().map_or("SHA-256", |hash| hash.name());
        self.known.cause = format!(
            "the ids of the commit-graph are of {name}, and those of the repository of {}",
            self.question.repository.hash.name()
        );
    }

    /// Names the file of which a refusal speaks.
    pub fn name_file(&mut self) {
        let line = self.answer.line.clone();
        self.known.file = None;
        let number = if let Some(number) = number_after(&line, " layer ") {
            number.parse().ok()
        } else if line.contains(" position ") {
            self.at_position().map(|found| found.layer)
        } else if is_of_chain_file(&line) {
            if self.graph.kind != Kind::File {
                let file = self.graph.chain_file();
                self.known.place = format!("the chain file is '{}'", shown(&file));
                self.known.file = Some(file);
            }
            return;
        } else if line == "refused git 1" {
            Some(0)
        } else if line.starts_with("refused file ") {
            self.listed
        } else {
            return;
        };
        let Some(number) = number else { return };
        let file = self.graph.layer_file(number);
        self.known.place = match self.graph.kind {
            Kind::File => format!("the file is '{}'", shown(&file)),
            Kind::Chain => format!(
                "layer {number} is '{}', by line {} of '{}'",
                shown(&file),
                number + 1,
                shown(self.graph.chain_file())
            ),
            Kind::None => std::mem::take(&mut self.known.place),
        };
        self.known.file = Some(file);
    }

    /// Finds the first file that cannot be read, and why.
    pub fn find_obstacle(&mut self) -> Option<&'static str> {
        if self.graph.kind == Kind::None {
            return None;
        }
        let file = self.graph.main_file();
        let reason = self.name_obstacle(file, None);
        if reason.is_some() || self.graph.kind == Kind::File {
            return reason;
        }
        let files = self.graph.layer_files();
        let at = files.iter().position(|file| obstacle(file).is_some())?;
        self.name_obstacle(files[at].clone(), Some(at + 1))
    }

    /// Says what is wrong with a file, which a line of the chain file may name.
    fn name_obstacle(&mut self, file: PathBuf, line: Option<usize>) -> Option<&'static str> {
        let reason = obstacle(&file);
        if let Some(reason) = reason {
            let names = line.map_or_else(String::new, |number| {
                format!(", which line {number} of '{}' names,", shown(self.graph.chain_file()))
            });
            self.known.cause = format!("the file '{}'{names} {reason}", shown(&file));
        }
        self.known.file = Some(file);
        reason
    }

    /// The same where a file was not opened or not read.
    fn diagnose_opening(&mut self) {
        if self.graph.kind == Kind::None {
            match self.question.places.closed() {
                Some(folder) => self.name_closed(&folder),
                None => self.diagnose_absent(),
            }
            return;
        }
        let reason = self.find_obstacle();
        if reason.is_some_and(|reason| !reason.starts_with("may not be read")) {
            self.known.advice = ANEW.to_owned();
            self.advise_anew();
            return;
        }
        self.known.is_absent = true;
        if self.answer.line == "refused open 3" && reason.is_none() {
            return;
        }
        self.known.advice =
            "see to it that whoever runs this may read the file, and ask again".to_owned();
        let file = self.known.file.clone().unwrap_or_default();
        self.known.cure = vec![format!("ls -l {}", quoted(file))];
    }

    /// Says that a folder may not be entered.
    fn name_closed(&mut self, folder: &Path) {
        self.known.is_absent = true;
        self.known.file = Some(folder.to_owned());
        self.known.cause =
            format!("the folder '{}' may not be read (permission denied)", shown(folder));
        self.known.advice =
            "see to it that whoever runs this may enter the folder, and ask again".to_owned();
        self.known.cure = vec![format!("ls -ld {}", quoted(folder))];
    }

    /// The same where there is no commit-graph.
    fn diagnose_absent(&mut self) {
        let status = self.answer.status;
        self.answer =
            Answer { passed: self.answer.passed, ..Answer::failed(status, &Error::NoGraph) };
        self.known.file = None;
        let mut known =
            Known { is_absent: true, has_none: true, ..std::mem::take(&mut self.known) };
        let cures = self.cures();
        if !cures.is_hindered(&mut known) {
            if cures.is_foreign() {
                cures.advise_own(&mut known, Wish::Write);
            } else {
                known.advice = "have Git write one".to_owned();
                known.cure = vec![cures.writes("", "")];
            }
        }
        self.known = known;
    }

    /// The same of a commit that the commit-graph lacks. Git writes one that has it where something
    /// leads to the commit.
    fn diagnose_unknown(&mut self) {
        let number = self.answer.line.strip_prefix("unknown ").and_then(|text| text.parse().ok());
        let at = number.and_then(|number: usize| number.checked_sub(1));
        let Some((at, id)) = at.and_then(|at| Some((at, self.question.ids.get(at)?))) else {
            return;
        };
        if self.newer.is_some() {
            self.known.commit.clone_from(id);
            self.known.cause = self.unknown_cause(at, id, "in the repository");
            return self.diagnose_lost();
        }
        let mut known = std::mem::take(&mut self.known);
        known.commit.clone_from(id);
        known.cause = self.unknown_cause(at, id, "in the commit-graph");
        let (question, cures) = (self.question, self.cures());
        if !question.is_led_to(id, &["--all", "--reflog"]) {
            known.advice = "no reference, no HEAD and no reflog leads to the commit, so that Git \
                            writes it into no commit-graph: make a branch there, and write it then"
                .to_owned();
        } else if cures.is_hindered(&mut known) {
        } else if cures.is_foreign() {
            cures.advise_own(&mut known, Wish::WriteAgain);
        } else if question.is_led_to(id, &["--all"]) {
            known.advice =
                "if the commit is newer than the commit-graph, write that again".to_owned();
            known.cure = vec![cures.writes(cures.form(), "")];
        } else {
            known.advice =
                "only a reflog leads to the commit, as to one of several stashes: write \
                            the commit-graph with all that reflogs lead to"
                    .to_owned();
            known.cure = vec![cures.writes(cures.form(), " --reflog")];
        }
        self.known = known;
    }

    /// The sentence on a commit that is lacking, with the word by which the user named it.
    fn unknown_cause(&self, at: usize, id: &str, place: &str) -> String {
        let name = self.question.words.revisions.get(at).map(|name| word_of(name));
        let mut cause = match name {
            Some(name) if name != id => format!("'{name}' ({id}) is not {place}"),
            _ => format!("the commit {id} is not {place}"),
        };
        if at > 0 {
            cause += "; the commits named before it are";
        }
        cause
    }
}

/// Whether a refusal speaks of the chain file.
fn is_of_chain_file(line: &str) -> bool {
    ["refused open 4 ", "refused open 6 ", "refused git 2 "]
        .iter()
        .any(|start| line.starts_with(start))
}
