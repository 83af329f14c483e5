//! `git cgraph verify --objects`: compares the commit-graph with the commits.
//!
//! For each part of the positions three processes run in a row: `historytool ids`, which names the
//! commits; `git cat-file`, which writes them; and `historytool objects`, which holds each against
//! the commit-graph.

use std::io::{self, BufRead, BufReader, Read, Write};
use std::path::Path;
use std::process::{Child, ChildStdin, ChildStdout, Command, Stdio};
use std::thread::{self, JoinHandle};

use crate::diagnosis::Case;
use crate::error::Error;
use crate::graph::Place;
use crate::program::read_aside;
use crate::progress::Counter;
use crate::session::{signal_in, Session, NAME, UNREAD};
use crate::text::text_of;

/// What the parts answer together.
pub struct Compared {
    /// The status and the line of the first part that is not right, or of the last one.
    pub status: i32,
    pub line: String,
    pub said: String,
    /// Whether another commit-graph was read meanwhile.
    pub is_other: bool,
    pub count: u64,
}

/// Compares the commits of a commit-graph that was found right, so many parts at a time as was
/// asked for.
pub fn compare(case: &Case, historytool: &Path, count: u64) -> Compared {
    let question = case.question;
    let parts = u64::from(question.options().jobs.unwrap_or(1)).min(count.max(1));
    let line = question.progress.counting(&question.session.guard, count);
    let started: Vec<Part> = (0..parts)
        .map(|part| {
            let range = (count * part / parts, count * (part + 1) / parts);
            Part::start(case, historytool, range, line.counter().map(|it| (it, count / 200 + 1)))
        })
        .collect();
    let ended: Vec<Ended> = started.into_iter().map(|part| part.end(question.session)).collect();
    line.end();
    judge(&ended, count)
}

/// The processes that compare one part.
struct Part {
    ids: Option<Child>,
    git: Option<Child>,
    objects: Option<Child>,
    /// Passes on the ids, and answers with the line of a refusal in their place.
    passing: Option<JoinHandle<Option<String>>>,
    said: Option<JoinHandle<Vec<u8>>>,
}

/// How they ended.
#[derive(Clone, Debug, Default)]
struct Ended {
    ids: i32,
    git: i32,
    objects: i32,
    /// The line by which `ids` was refused, and the one that `objects` wrote.
    refused: Option<String>,
    line: String,
    said: String,
}

impl Part {
    fn start(
        case: &Case,
        historytool: &Path,
        range: (u64, u64),
        counter: Option<(Counter, u64)>,
    ) -> Self {
        let session = case.question.session;
        let tool = |word: &str| {
            let mut tool = Command::new(historytool);
            if let Some(place) = &case.place {
                tool.args([word, place.graph]).current_dir(&place.folder);
            }
            tool.args([range.0.to_string(), range.1.to_string()]);
            tool.stdin(Stdio::null()).stdout(Stdio::piped()).stderr(Stdio::null());
            tool
        };
        let mut ids = session.spawn(&mut tool("ids")).ok();
        let mut cat_file = session.git_alone();
        cat_file.args(["cat-file", "--batch", "--buffer"]);
        cat_file.stdin(Stdio::piped()).stdout(Stdio::piped()).stderr(Stdio::piped());
        let mut git = session.spawn(&mut cat_file).ok();
        let commits = git.as_mut().and_then(|git| git.stdout.take());
        let objects =
            session.spawn(tool("objects").stdin(commits.map_or(Stdio::null(), Stdio::from))).ok();
        let from = ids.as_mut().and_then(|ids| ids.stdout.take());
        let to = git.as_mut().and_then(|git| git.stdin.take());
        let passing = from.zip(to).map(|(from, to)| thread::spawn(|| pass_ids(from, to, counter)));
        let said = git.as_mut().and_then(|git| git.stderr.take()).map(read_aside);
        Part { ids, git, objects, passing, said }
    }

    /// Waits for their end.
    fn end(mut self, session: &Session) -> Ended {
        let mut line = Vec::new();
        if let Some(mut out) = self.objects.as_mut().and_then(|objects| objects.stdout.take()) {
            let _ = out.read_to_end(&mut line);
        }
        let refused = self.passing.and_then(|thread| thread.join().ok()).flatten();
        let said = self.said.and_then(|thread| thread.join().ok()).unwrap_or_default();
        let wait = |child: Option<Child>| child.map_or(128, |mut child| session.wait(&mut child));
        Ended {
            ids: wait(self.ids),
            git: wait(self.git),
            objects: wait(self.objects),
            refused,
            line: text_of(&line).lines().next().unwrap_or_default().to_owned(),
            said: text_of(&said),
        }
    }
}

/// Passes on the ids of a part, and counts them if somebody looks on. A refusal in their place goes
/// no further, and comes back.
fn pass_ids(
    from: ChildStdout,
    mut to: ChildStdin,
    counter: Option<(Counter, u64)>,
) -> Option<String> {
    let mut from = BufReader::with_capacity(1 << 16, from);
    let mut first = Vec::new();
    from.read_until(b'\n', &mut first).ok()?;
    let line = first.strip_suffix(b"\n")?;
    if line.starts_with(b"refused ") {
        return Some(text_of(line));
    }
    let _ = to.write_all(&first).and_then(|()| copy_counted(from, to, counter));
    None
}

/// Copies lines, and tells at each step how many more there were.
fn copy_counted(
    mut from: impl BufRead,
    mut to: impl Write,
    counter: Option<(Counter, u64)>,
) -> io::Result<()> {
    let Some((counter, step)) = counter else {
        return io::copy(&mut from, &mut to).map(|_| ());
    };
    let mut count = 1;
    loop {
        let part = from.fill_buf()?;
        if part.is_empty() {
            counter.add(count);
            return Ok(());
        }
        to.write_all(part)?;
        count += part.iter().filter(|&&byte| byte == b'\n').count() as u64;
        let length = part.len();
        from.consume(length);
        if count >= step {
            counter.add(std::mem::take(&mut count));
        }
    }
}

/// The answer of all parts: that of the first one that is not right.
fn judge(parts: &[Ended], count: u64) -> Compared {
    let said = parts.iter().map(|part| part.said.as_str()).collect();
    let mut compared = Compared { status: 0, line: String::new(), said, is_other: false, count };
    for part in parts {
        let verdict = judge_part(part);
        compared.is_other |= verdict == Verdict::Other;
        if compared.is_other {
            return compared;
        }
        if let (0, Verdict::Ended(status, line)) = (compared.status, verdict) {
            (compared.status, compared.line) = (status, line);
        }
    }
    match (compared.status, compared.line.as_str()) {
        (0, _) | (_, "") => {}
        (_, line) if line.starts_with("refused ") => {}
        (_, line) if line.starts_with("ended by ") => compared.said = format!("{NAME}: {line}\n"),
        (_, line) => compared.said += &format!("{NAME}: {line}\n"),
    }
    compared
}

/// What became of one part.
#[derive(Debug, PartialEq, Eq)]
enum Verdict {
    Ended(i32, String),
    /// Another commit-graph was read meanwhile.
    Other,
}

/// The answer of one part.
fn judge_part(part: &Ended) -> Verdict {
    let (status, line) = match &part.refused {
        Some(line) => (1, line.clone()),
        None => (part.objects, part.line.clone()),
    };
    let is = |starts: &[&str]| starts.iter().any(|start| line.starts_with(start));
    let ended = match status {
        0 if (part.ids, part.git) == (0, 0) && is(&["ok commits "]) => Verdict::Ended(0, line),
        0 => judge_failed(part, 0, line),
        1 if is(&["refused objects 1 "]) => judge_failed(part, 1, line),
        1 if is(&["refused objects 3 "]) || line == "refused objects 11" => Verdict::Other,
        1 if is(&["refused objects ", "refused read "]) => Verdict::Ended(1, line),
        1 if line == "refused open 7" || line == "refused verify 10" => Verdict::Ended(1, line),
        1 => Verdict::Other,
        _ => Verdict::Ended(status, line),
    };
    match ended {
        Verdict::Ended(status, _) if is_signal(status) => by_signal(status),
        other => other,
    }
}

/// The same where the stream of commits ended early, or a program failed beside an answer: which
/// one failed. Where none did, the ids were those of another commit-graph.
fn judge_failed(part: &Ended, status: i32, line: String) -> Verdict {
    if is_signal(part.ids) {
        Verdict::Ended(part.ids, line)
    } else if is_signal(part.git) {
        Verdict::Ended(part.git, line)
    } else if part.git != 0 && status == 0 {
        Verdict::Ended(128, Error::GitEnded(part.git).to_string())
    } else if part.git != 0 {
        Verdict::Ended(status, line)
    } else if part.ids != 0 {
        Verdict::Ended(128, Error::IdsEnded(part.ids).to_string())
    } else {
        Verdict::Other
    }
}

fn by_signal(status: i32) -> Verdict {
    Verdict::Ended(status, Error::Signal(signal_in(status).unwrap_or(0)).to_string())
}

/// Whether a status is that of a signal, other than that nobody reads on.
pub fn is_signal(status: i32) -> bool {
    status > 128 && status != UNREAD
}

/// `historytool ids`, of some positions or of all.
pub fn ids(place: &Place, historytool: &Path, range: Option<(u64, u64)>) -> Command {
    let mut tool = Command::new(historytool);
    tool.args(["ids", place.graph]).current_dir(&place.folder).stdin(Stdio::null());
    if let Some((from, to)) = range {
        tool.args([from.to_string(), to.to_string()]);
    }
    tool
}

#[cfg(test)]
mod tests {
    use super::*;

    fn part(ids: i32, git: i32, objects: i32, line: &str) -> Ended {
        Ended { ids, git, objects, line: line.to_owned(), ..Ended::default() }
    }

    #[test]
    fn whichever_process_fails_is_told() {
        let ended = |status, line: &str| Verdict::Ended(status, line.to_owned());
        assert_eq!(judge_part(&part(0, 0, 0, "ok commits 4")), ended(0, "ok commits 4"));
        assert_eq!(
            judge_part(&part(0, 128, 0, "ok commits 4")),
            ended(128, "git cat-file ended with status 128")
        );
        assert_eq!(
            judge_part(&part(2, 0, 0, "ok commits 4")),
            ended(128, "historytool ids ended with status 2")
        );
        assert_eq!(
            judge_part(&part(137, 0, 1, "refused objects 1 position 2")),
            ended(137, "ended by signal 9")
        );
        assert_eq!(
            judge_part(&part(141, 137, 1, "refused objects 1 position 2")),
            ended(137, "ended by signal 9")
        );
        let short = "refused objects 1 position 2";
        assert_eq!(judge_part(&part(141, 128, 1, short)), ended(1, short));
        assert_eq!(judge_part(&part(0, 0, 1, short)), Verdict::Other);
        assert_eq!(judge_part(&part(0, 0, 1, "refused objects 11")), Verdict::Other);
        assert_eq!(judge_part(&part(0, 0, 1, "refused open 2")), Verdict::Other);
        assert_eq!(judge_part(&part(0, 0, 137, "")), ended(137, "ended by signal 9"));
        let refused = Ended { refused: Some("refused open 7".into()), ..part(1, 0, 1, short) };
        assert_eq!(judge_part(&refused), ended(1, "refused open 7"));
    }

    #[test]
    fn of_several_parts_the_first_counts() {
        let parts = [
            part(0, 0, 0, "ok commits 1"),
            part(0, 0, 1, "refused objects 8 position 1"),
            part(0, 0, 137, ""),
        ];
        let compared = judge(&parts, 3);
        assert_eq!((compared.status, compared.line.as_str()), (1, "refused objects 8 position 1"));
        assert_eq!(compared.said, "");
    }
}
