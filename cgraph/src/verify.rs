//! `git cgraph verify`: the check of the commit-graph, and what options ask for besides. Git hands
//! over the commits and the trees against which it is held then.

use crate::answers::{ask_program, Asked, NO_ANSWER};
use crate::commands::Tool;
use crate::diagnosis::Case;
use crate::error::Error;
use crate::graph::Place;
use crate::objects;
use crate::program::{Answer, Call, Held, Silence, Sink};
use crate::question::Question;
use crate::ring::{self, Objects};
use crate::session::Passed;

/// Asks for the check of the commit-graph, and for what options ask for besides.
pub fn verify<'a>(question: &'a Question<'a>, sink: &mut dyn Sink) -> Result<Case<'a>, Error> {
    let options = question.options();
    match options.objects || options.paths {
        true => verify_further(question, sink),
        false => check(question, sink),
    }
}

/// Asks for the check of the commit-graph by itself.
fn check<'a>(question: &'a Question<'a>, sink: &mut dyn Sink) -> Result<Case<'a>, Error> {
    if question.options().all_checks {
        return check_all(question, sink);
    }
    let graphtool = question.session.program(Tool::Graphtool)?;
    ask_program(question, Asked::other(&graphtool, "verify"), sink)
}

/// Asks both programs for all that they check: `distinct` of the one, whose lines are those of
/// `verify`, and then `check` of the other, with the lines on dates and filters.
fn check_all<'a>(question: &'a Question<'a>, sink: &mut dyn Sink) -> Result<Case<'a>, Error> {
    let historytool = question.session.program(Tool::Historytool)?;
    let graphtool = question.session.program(Tool::Graphtool)?;
    let case = ask_program(question, Asked::other(&graphtool, "distinct"), &mut Silence)?;
    if !is_right(&case) {
        return Ok(case);
    }
    ask_program(question, Asked::other(&historytool, "check"), sink)
}

/// Whether all that was asked so far is right.
fn is_right(case: &Case) -> bool {
    case.answer.status == 0 && case.answer.passed == Passed::Whole
}

/// Asks for the check of the commit-graph and then for those of its commits and trees, and once more
/// where it is another one meanwhile. The lines are held back until then.
fn verify_further<'a>(question: &'a Question<'a>, sink: &mut dyn Sink) -> Result<Case<'a>, Error> {
    const TRIES: usize = 2;
    for _ in 0..TRIES {
        let stamp = question.places.graph().stamp();
        let mut held = Held::default();
        let mut case = check(question, &mut held)?;
        if !is_right(&case) {
            return Ok(case);
        }
        let is_other = look_further(&mut case, &mut held)?;
        if !is_other && stamp.is_below(&question.places.graph().stamp()) {
            if is_right(&case) {
                case.write(&held.0, sink);
            }
            return Ok(case);
        }
    }
    let answer = Answer::failed(NO_ANSWER, &Error::WrittenAnew);
    Ok(Case::new(question, question.places.graph(), answer))
}

/// Compares the commits and the trees of a commit-graph that was found right, as options ask for,
/// and adds a line for each. Tells whether another commit-graph was read meanwhile.
fn look_further(case: &mut Case, held: &mut Held) -> Result<bool, Error> {
    let historytool = case.question.session.program(Tool::Historytool)?;
    let options = case.question.options();
    if options.objects {
        let count = case.answer.line.split(' ').nth(2).and_then(|count| count.parse().ok());
        let compared = objects::compare(case, &historytool, count.unwrap_or(0));
        if compared.is_other {
            return Ok(true);
        }
        case.answer = Answer { said: compared.said, ..Answer::of(compared.status, compared.line) };
        held.0.extend(format!("objects commits {}\n", compared.count).bytes());
    }
    if options.paths && is_right(case) {
        look_at_paths(case, Asked::other(&historytool, "paths"), held);
    }
    Ok(false)
}

/// Holds the changed-path filters against the trees. Nothing but a line on them says that they are
/// right.
fn look_at_paths(case: &mut Case, asked: Asked, held: &mut Held) {
    let ring = case.place.as_ref().map(|place| ask_about_trees(case.question, asked, place));
    let (answer, lines) = ring.unwrap_or_else(|| (Answer::of(0, ""), Held::default()));
    case.answer = answer;
    case.asked = asked.of;
    match lines.0.strip_prefix(b"filters ") {
        Some(found) => held.0.extend([b"paths ", found].concat()),
        None if is_right(case) => case.answer = Answer::failed(NO_ANSWER, &Error::Unwritten),
        None => {}
    }
}

/// Asks a program that asks for trees, which Git hands over.
fn ask_about_trees(question: &Question, asked: Asked, place: &Place) -> (Answer, Held) {
    let (session, words) = (question.session, [asked.word, place.graph]);
    let (program, folder) = (asked.program, place.folder.as_path());
    let call = Call { program, words: &words, folder, input: None, asks: false };
    let line = question.progress.waiting(&session.guard, "Checking filters");
    let mut lines = Held::default();
    let ring = ring::ask(session, &call, Objects::Trees, &mut lines, line, question.progress);
    (ring.answer, lines)
}
