//! `git cgraph show`: the layers with their files, and how much of the repository the commit-graph
//! covers.

use std::fs::File;
use std::path::{Path, PathBuf};
use std::process::Stdio;

use crate::answers::{ask_program, Asked};
use crate::cures::Wish;
use crate::diagnosis::Case;
use crate::error::Error;
use crate::graph::{Graph, Kind};
use crate::ids::Ids;
use crate::json::{Object, Value};
use crate::known::what_to_do;
use crate::objects;
use crate::program::{Answer, Held, Sink};
use crate::question::Question;
use crate::text::{shown, text_of};

/// Shows the commit-graph that is there, also where it is refused, be it by Git alone: the line of
/// the answer is the refusal then. Where it is another one meanwhile, or was for a moment, so that
/// its ids could not be read, all is asked once more, and nothing is written until then.
pub fn show<'a>(
    question: &'a Question<'a>,
    historytool: &Path,
    sink: &mut dyn Sink,
) -> Result<Case<'a>, Error> {
    const TRIES: usize = 3;
    for number in 1..=TRIES {
        let stamp = question.places.graph().stamp();
        let mut held = Held::default();
        let mut case = ask_program(question, Asked::own(question, historytool), &mut held)?;
        let mut lines = take_lines(&mut case, &held);
        let refused = case.graph.refused_by_git(question.repository.hash);
        if let (0 | 1, Some(line)) = (case.answer.status, refused) {
            case.answer.line = line;
            case.answer.status = 1;
            lines.retain(|line| line != "right");
        }
        if question.options().quiet || lines.is_empty() || !matches!(case.answer.status, 0 | 1) {
            return Ok(case);
        }
        let rows = with_files(&lines, &case.graph);
        let mut coverage = Ok(None);
        if case.answer.status == 0 {
            coverage = find_coverage(&mut case, historytool).map(Some);
        }
        if question.places.graph().stamp() == stamp
            && (coverage != Err(Uncounted::Ids) || number == TRIES)
        {
            write(&mut case, sink, &rows, coverage.ok().flatten());
            return Ok(case);
        }
    }
    let mut case =
        Case::new(question, question.places.graph(), Answer::failed(128, &Error::WrittenAnew));
    case.asked = "show";
    Ok(case)
}

/// Takes the lines that were held back. A refusal among them becomes the line of the answer.
fn take_lines(case: &mut Case, held: &Held) -> Vec<String> {
    let text = text_of(&held.0);
    let (refused, lines): (Vec<&str>, Vec<&str>) =
        text.lines().partition(|line| line.starts_with("refused "));
    if let Some(line) = refused.last() {
        case.answer.line = (*line).to_owned();
    }
    lines.into_iter().map(str::to_owned).collect()
}

/// A row of what is shown.
enum Row {
    Line(String),
    /// The size and the path of the file of a layer.
    File(u64, PathBuf),
    /// The size of all files.
    Size(u64),
}

/// The lines, with the size and the path of each layer's file, and all sizes together.
fn with_files(lines: &[String], graph: &Graph) -> Vec<Row> {
    let (mut rows, mut files, mut whole) = (Vec::new(), graph.layer_files().into_iter(), 0);
    for line in lines {
        rows.push(Row::Line(line.clone()));
        if line.starts_with("chunks ") {
            let file = files.next().unwrap_or_default();
            let size = file.metadata().map_or(0, |file| file.len());
            whole += size;
            rows.push(Row::File(size, file));
        } else if line.starts_with("graph ") {
            rows.push(Row::Size(whole));
        }
    }
    rows
}

/// How many reachable commits the commit-graph lacks, how many of its commits are gone, and how
/// many are unreachable.
#[derive(Clone, Copy, Debug, PartialEq, Eq)]
struct Coverage {
    missing: usize,
    gone: usize,
    unreachable: usize,
}

/// What could not be counted.
#[derive(Clone, Copy, Debug, PartialEq, Eq)]
enum Uncounted {
    Reachable,
    Ids,
}

/// Finds that out, or notes that it cannot be found out.
fn find_coverage(case: &mut Case, historytool: &Path) -> Result<Coverage, Uncounted> {
    let question = case.question;
    let counted = count_commits(case, historytool);
    if let Err(uncounted) = counted {
        if question.scratch.is_full() {
            case.refuse_scratch();
        } else {
            let error = match uncounted {
                Uncounted::Reachable => Error::Unlisted,
                Uncounted::Ids => Error::NotCompared,
            };
            case.answer.fail(128, &error);
        }
    }
    counted
}

/// Compares what a reference or the HEAD of a worktree leads to, by the commits themselves, with
/// what stands in the commit-graph.
fn count_commits(case: &Case, historytool: &Path) -> Result<Coverage, Uncounted> {
    let question = case.question;
    let session = question.session;
    let mut git = session.plain_git();
    git.env("GIT_PROGRESS_DELAY", question.progress.delay().unwrap_or_default()).arg("rev-list");
    if question.progress.is_shown() {
        git.arg("--progress=Listing commits");
    }
    let create = |name: &str| {
        let path = question.scratch.path(name).ok()?;
        Some((File::create(&path).ok()?, path))
    };
    let (file, reachable) = create("reachable").ok_or(Uncounted::Reachable)?;
    if session.status(git.arg("--all").stdout(file)) != 0 {
        return Err(Uncounted::Reachable);
    }
    let line = question.progress.waiting(&session.guard, "Comparing commits");
    let place = case.place.as_ref().ok_or(Uncounted::Ids)?;
    let compared = create("stored").and_then(|(file, stored)| {
        let mut ids = objects::ids(place, historytool, None);
        (session.status(ids.stdout(file)) == 0).then_some(())?;
        compare(question, &reachable, &stored)
    });
    line.end();
    compared.ok_or(Uncounted::Ids)
}

/// Compares two lists of ids. A commit that is gone is not one of the unreachable ones.
fn compare(question: &Question, reachable: &Path, stored: &Path) -> Option<Coverage> {
    let (reachable, stored) = (Ids::of_file(reachable).ok()?, Ids::of_file(stored).ok()?);
    let others = stored.without(&reachable);
    let mut counts =
        Coverage { missing: reachable.without(&stored).len(), gone: 0, unreachable: 0 };
    if others.is_empty() {
        return Some(counts);
    }
    let path = question.scratch.path("others").ok()?;
    others.write(File::create(&path).ok()?).ok()?;
    let mut git = question.session.git_alone();
    git.args(["cat-file", "--batch-check=%(objecttype)", "--buffer"]);
    let (status, types) = question.session.output(git.stdin(Stdio::from(File::open(&path).ok()?)));
    (status == 0).then_some(())?;
    for kind in text_of(&types).lines() {
        match kind {
            "commit" => counts.unreachable += 1,
            _ => counts.gone += 1,
        }
    }
    Some(counts)
}

/// Writes all, and says what to do, where that is something.
fn write(case: &mut Case, sink: &mut dyn Sink, rows: &[Row], coverage: Option<Coverage>) {
    case.fields = fields_of(rows);
    let text: Vec<String> = rows.iter().map(text_of_row).collect();
    case.write_shown(&text.join("\n"), sink);
    let Some(coverage) = coverage else { return };
    let Coverage { missing, gone, unreachable } = coverage;
    case.write_shown(&format!("missing {missing}\ngone {gone}\nunreachable {unreachable}"), sink);
    for (name, count) in [("missing", missing), ("gone", gone), ("unreachable", unreachable)] {
        case.fields.set(name, count as u64);
    }
    if case.answer.status == 0 {
        say_unused(case);
        say_uncovered(case, coverage);
    }
}

fn text_of_row(row: &Row) -> String {
    match row {
        Row::Line(line) => line.clone(),
        Row::File(size, path) => format!("size {size} file {}", shown(path)),
        Row::Size(size) => format!("size {size}"),
    }
}

/// The fields of all rows.
fn fields_of(rows: &[Row]) -> Object {
    let (mut layers, mut whole) = (Vec::<Object>::new(), Object::default());
    for row in rows {
        let line = match row {
            Row::Line(line) => line,
            Row::File(size, path) => {
                if let Some(layer) = layers.last_mut() {
                    layer.set("size", *size);
                    layer.set("file", shown(path));
                }
                continue;
            }
            Row::Size(size) => {
                whole.set("size", *size);
                continue;
            }
        };
        let words: Vec<&str> = line.split(' ').collect();
        match words[..] {
            ["layer", ..] => layers.push(layer_fields(&words)),
            ["checksum", checksum] => set_last(&mut layers, "checksum", Value::from(checksum)),
            ["chunks", ref chunks @ ..] => set_last(&mut layers, "chunks", pairs_of(chunks).into()),
            ["graph", "layers", _, ref pairs @ ..] => whole.extend(pairs_of(pairs)),
            _ => {}
        }
    }
    let mut fields = Object::default();
    fields.set("layers", layers);
    fields.extend(whole);
    fields
}

fn set_last(layers: &mut [Object], name: &str, value: Value) {
    if let Some(layer) = layers.last_mut() {
        layer.set(name, value);
    }
}

/// Names, each with the number after it.
fn pairs_of(words: &[&str]) -> Object {
    let mut pairs = Object::default();
    for pair in words.chunks_exact(2) {
        pairs.set(pair[0], pair[1].parse().map_or_else(|_| Value::from(pair[1]), Value::Number));
    }
    pairs
}

/// The fields of the line of a layer.
fn layer_fields(words: &[&str]) -> Object {
    let mut fields = Object::default();
    for (at, word) in words.iter().enumerate().step_by(2) {
        let value = words.get(at + 1).copied().unwrap_or_default();
        match *word {
            "hash" => fields.set("hash", value),
            "dates" => fields.set("dates", value == "yes"),
            "filters" => {
                let made = words.get(at + 1..).unwrap_or_default();
                let made = if value == "none" { Value::Null } else { pairs_of(made).into() };
                fields.set("filters", made);
                break;
            }
            name => fields.extend(pairs_of(&[name, value])),
        }
    }
    fields
}

/// Says why Git uses no commit-graph here, where that is so.
fn say_unused(case: &mut Case) {
    let question = case.question;
    let start = "Git uses no commit-graph here, since";
    if question.is_unused() {
        case.warn(&format!("{start} core.commitGraph is false"));
    }
    if question.has_replacements() {
        case.warn(&format!(
            "{start} some commits are replaced (git replace), unless it is called as git \
             --no-replace-objects"
        ));
    }
    if question.repository.has_grafts() {
        let grafts = shown(question.repository.grafts());
        case.warn(&format!("{start} '{grafts}' gives commits other parents"));
    }
    if question.repository.is_shallow {
        case.warn(&format!("{start} this repository is shallow"));
    }
}

/// Says what the commit-graph lacks, or has that is gone, and how it is written so that this is not
/// so.
fn say_uncovered(case: &mut Case, coverage: Coverage) {
    let Coverage { missing, gone, .. } = coverage;
    match missing {
        0 => {}
        1 => case.warn(
            "1 reachable commit is not in the commit-graph: Git has to read the commit itself",
        ),
        _ => case.warn(&format!(
            "{missing} reachable commits are not in the commit-graph: Git has to read the commits \
             themselves"
        )),
    }
    let refuses = "for which 'git commit-graph verify' refuses it";
    match gone {
        0 => {}
        1 => case.warn(&format!("1 commit of the commit-graph is gone, {refuses}")),
        _ => case.warn(&format!("{gone} commits of the commit-graph are gone, {refuses}")),
    }
    if (missing, gone) != (0, 0) {
        advise_covering(case, gone > 0);
        case.question.session.tell(&what_to_do(&case.known.advice, &case.known.cure));
    }
}

/// Says how a commit-graph of all reachable commits is written, and of no others. In a chain the
/// layers stay as they are, and commits that are gone with them.
fn advise_covering(case: &mut Case, some_are_gone: bool) {
    let mut known = std::mem::take(&mut case.known);
    let cures = case.cures();
    if !cures.is_hindered(&mut known) {
        if cures.is_foreign() {
            cures.advise_own(&mut known, Wish::WriteAgain);
        } else {
            known.advice = "write it again".to_owned();
            if some_are_gone && case.graph.kind != Kind::File {
                known.cure.extend(cures.removes_chain());
            }
            known.cure.push(cures.writes(cures.form(), ""));
        }
    }
    case.known = known;
}

#[cfg(test)]
mod tests {
    use super::*;

    #[test]
    fn fields_of_layers() {
        let lines = [
            "layer 0 commits 4 hash sha1 bases 0 dates yes filters version 1 hashes 7 bits 10",
            "checksum ab",
            "chunks OIDF 1024 GDA2 16",
        ];
        let mut rows: Vec<Row> = lines.iter().map(|line| Row::Line((*line).to_owned())).collect();
        rows.push(Row::File(1352, "/a\nb".into()));
        rows.push(Row::Line("graph layers 1 commits 4 generation 3".to_owned()));
        rows.push(Row::Size(1352));
        rows.push(Row::Line("right".to_owned()));
        let wanted = concat!(
            r#"{"layers":[{"layer":0,"commits":4,"hash":"sha1","bases":0,"dates":true,"#,
            r#""filters":{"version":1,"hashes":7,"bits":10},"checksum":"ab","chunks":{"OIDF":1024,"GDA2":16},"#,
            r#""size":1352,"file":"/a\u000ab"}],"commits":4,"generation":3,"size":1352}"#
        );
        assert_eq!(fields_of(&rows).to_string(), wanted);
    }
}
