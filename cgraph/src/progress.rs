//! The line by which standard error says how far something is, where that takes seconds. It is
//! written over, as Git's own: `Checking commits:  43% (430000/1000000)`.

use std::env;
use std::fs;
use std::io::{self, Write};
use std::sync::mpsc::{self, Receiver, RecvTimeoutError, Sender};
use std::sync::Arc;
use std::thread::{self, JoinHandle};
use std::time::{Duration, Instant};

use crate::guard::Guard;
use crate::ring::Objects;
use crate::session::Session;
use crate::words::Options;

const SECOND: Duration = Duration::from_secs(1);

/// Whether there is such a line, and when.
#[derive(Clone, Copy, Debug, PartialEq, Eq)]
pub struct Progress {
    /// The seconds before the line is written first, if it is written.
    delay: Option<u64>,
    /// Whether it was asked for, and begins at once.
    at_once: bool,
}

impl Progress {
    /// The line is there where it was asked for, and on a terminal: after as many seconds as Git
    /// waits.
    pub fn find(session: &Session, options: &Options) -> Self {
        let is_shown = match options.progress {
            _ if options.quiet => false,
            Some(true) => session.start.is_open(2),
            Some(false) => false,
            None => session.has_terminal(),
        };
        let at_once = options.progress == Some(true);
        let usual = || env::var("GIT_PROGRESS_DELAY").ok().and_then(|text| seconds_in(&text));
        let delay = if at_once { 0 } else { usual().unwrap_or(2) };
        Progress { delay: is_shown.then_some(delay), at_once }
    }

    /// Whether there is such a line.
    pub fn is_shown(self) -> bool {
        self.delay.is_some()
    }

    /// What Git has to be told for its own line.
    pub fn delay(self) -> Option<String> {
        self.delay.map(|seconds| seconds.to_string())
    }

    /// Says how much of a commit-graph of so many bytes a process has read, and then for how long
    /// it checks it.
    pub fn reading(self, guard: &Arc<Guard>, size: u64) -> Line {
        let what = What::Reading { size, process: None };
        self.begin(guard, what, |delay| (delay as i64 - 1, Duration::from_secs(delay)))
    }

    /// Says how many of some commits were compared.
    pub fn counting(self, guard: &Arc<Guard>, commits: u64) -> Line {
        let what = What::Counting { commits, counted: 0 };
        self.begin(guard, what, |delay| (delay as i64 - 1, Duration::from_secs(delay)))
    }

    /// Says how many objects were read for which a program asked.
    pub fn gathering(self, guard: &Arc<Guard>, objects: Objects) -> Line {
        let what = What::Gathering { objects, read: 0 };
        self.begin(guard, what, |delay| (delay as i64 - 1, Duration::from_secs(delay)))
    }

    /// Says each second for how long something goes on of which no more is known.
    pub fn waiting(self, guard: &Arc<Guard>, text: &'static str) -> Line {
        Progress { at_once: false, ..self }.begin(guard, What::Waiting(text), |_| (0, SECOND))
    }

    fn begin(self, guard: &Arc<Guard>, what: What, first: impl Fn(u64) -> (i64, Duration)) -> Line {
        let Some(delay) = self.delay else { return Line(None) };
        let (seconds, wait) = first(delay);
        let (sender, events) = mpsc::channel();
        let guard = Arc::clone(guard);
        let is_due = self.at_once;
        let state =
            State { guard, what, drawn: String::new(), seconds, delay: delay as i64, is_due };
        Line(Some((sender, thread::spawn(move || state.run(&events, wait)))))
    }
}

fn seconds_in(text: &str) -> Option<u64> {
    text.bytes().all(|byte| byte.is_ascii_digit()).then(|| text.parse().ok()).flatten()
}

/// A line that is there, or none.
pub struct Line(Option<(Sender<Event>, JoinHandle<()>)>);

impl Line {
    /// Tells which process reads a commit-graph.
    pub fn of_process(&self, process: u32) {
        self.send(Event::Process(process));
    }

    /// A way to tell of so many more commits, from another thread.
    pub fn counter(&self) -> Option<Counter> {
        self.0.as_ref().map(|(sender, _)| Counter(sender.clone()))
    }

    fn send(&self, event: Event) {
        if let Some((sender, _)) = &self.0 {
            let _ = sender.send(event);
        }
    }

    /// Ends the line.
    pub fn end(self) {
        if let Some((sender, thread)) = self.0 {
            drop(sender);
            let _ = thread.join();
        }
    }
}

/// Tells a line of commits.
pub struct Counter(Sender<Event>);

impl Counter {
    /// So many more.
    pub fn add(&self, count: u64) {
        let _ = self.0.send(Event::Counted(count));
    }
}

enum Event {
    Process(u32),
    Counted(u64),
}

enum What {
    Reading { size: u64, process: Option<u32> },
    Counting { commits: u64, counted: u64 },
    Gathering { objects: Objects, read: u64 },
    Waiting(&'static str),
}

struct State {
    guard: Arc<Guard>,
    what: What,
    drawn: String,
    seconds: i64,
    delay: i64,
    is_due: bool,
}

impl State {
    /// Draws the line at each event and each second, until there are no more.
    fn run(mut self, events: &Receiver<Event>, wait: Duration) {
        let mut next = Instant::now() + wait;
        self.draw();
        loop {
            match events.recv_timeout(next.saturating_duration_since(Instant::now())) {
                Ok(event) => self.take(event),
                Err(RecvTimeoutError::Timeout) => {
                    next += SECOND;
                    self.seconds += 1;
                    self.is_due |= self.seconds >= self.delay;
                }
                Err(RecvTimeoutError::Disconnected) => break,
            }
            self.draw();
        }
        if !self.drawn.is_empty() {
            let last = match &self.what {
                What::Reading { .. } => self.checking(),
                _ => self.line(),
            };
            self.tell(&format!("{last}, done.\n"));
        }
    }

    fn take(&mut self, event: Event) {
        match (event, &mut self.what) {
            (Event::Process(number), What::Reading { process, .. }) => *process = Some(number),
            (Event::Counted(count), What::Counting { counted, .. }) => *counted += count,
            (Event::Counted(count), What::Gathering { read, .. }) => *read += count,
            _ => {}
        }
    }

    /// Writes the line, where it is due and another one than before.
    fn draw(&mut self) {
        let line = self.line();
        if self.is_due && line != self.drawn {
            self.tell(&format!("{line}\r"));
            self.drawn = line;
        }
    }

    fn line(&self) -> String {
        match &self.what {
            What::Counting { commits, counted } => {
                format!("Checking commits: {} ({counted}/{commits})", percent(*counted, *commits))
            }
            What::Gathering { objects: Objects::Commits, read } => {
                format!("Reading newer commits: {read}")
            }
            What::Gathering { objects: Objects::Trees, read } => format!("Reading trees: {read}"),
            What::Waiting(text) => format!("{text}: {} s", self.seconds),
            What::Reading { size, process } => match process.map(bytes_read) {
                None => format!("Reading commit-graph: {}", percent(0, 1)),
                Some(Some(read)) if read < *size => {
                    format!("Reading commit-graph: {}", percent(read, *size))
                }
                Some(_) => self.checking(),
            },
        }
    }

    fn checking(&self) -> String {
        format!("Checking commit-graph: {} s", self.seconds.max(0))
    }

    fn tell(&self, text: &str) {
        self.guard.stop_where_ending();
        let _ = io::stderr().write_all(text.as_bytes());
    }
}

/// How many bytes a process has read. Linux tells that.
fn bytes_read(process: u32) -> Option<u64> {
    let told = fs::read_to_string(format!("/proc/{process}/io")).ok()?;
    told.lines().find_map(|line| line.strip_prefix("rchar: "))?.parse().ok()
}

/// A part of a number, as Git writes it.
fn percent(part: u64, whole: u64) -> String {
    format!("{:3}%", (100 * part).checked_div(whole).unwrap_or(100))
}

#[cfg(test)]
mod tests {
    use super::*;

    #[test]
    fn parts_of_numbers() {
        assert_eq!(percent(0, 7), "  0%");
        assert_eq!(percent(430_000, 1_000_000), " 43%");
        assert_eq!(percent(0, 0), "100%");
    }

    #[test]
    fn only_digits_are_seconds() {
        assert_eq!(seconds_in("30"), Some(30));
        assert_eq!(seconds_in("+3"), None);
        assert_eq!(seconds_in(""), None);
    }
}
