//! How the program ends where a signal comes: with all that it has started, and without what it has
//! made for a moment.
//!
//! One thread waits for signals. Where one comes, nothing more is written, started or made; the
//! processes that run are ended, locks and files of a moment are removed, and then the program ends
//! by the same signal. Only SIGKILL cannot be waited for: then the kernel ends each process that
//! was started (`PR_SET_PDEATHSIG`).

use std::collections::HashMap;
use std::fs;
use std::path::{Path, PathBuf};
use std::sync::atomic::{AtomicBool, Ordering};
use std::sync::{Arc, Mutex, MutexGuard, PoisonError};
use std::thread;
use std::time::Duration;

use crate::system::{self, Start, SIGHUP, SIGINT, SIGKILL, SIGPIPE, SIGQUIT, SIGTERM};

/// What has to be removed when the program ends.
#[derive(Default)]
pub struct Made {
    files: Vec<PathBuf>,
    folders: Vec<PathBuf>,
}

impl Made {
    /// Notes a file.
    pub fn add_file(&mut self, path: &Path) {
        self.files.push(path.to_owned());
    }

    /// Notes a folder of files.
    pub fn add_folder(&mut self, path: &Path) {
        self.folders.push(path.to_owned());
    }

    /// Forgets a file, which has another name by now, or is removed. Answers whether it was known.
    pub fn forget_file(&mut self, path: &Path) -> bool {
        let count = self.files.len();
        self.files.retain(|known| known != path);
        self.files.len() < count
    }

    /// Removes all.
    pub fn remove(&mut self) {
        for file in self.files.drain(..) {
            let _ = fs::remove_file(file);
        }
        self.folders.drain(..).for_each(|folder| remove_folder(&folder));
    }
}

/// Removes a folder. Another thread may put a last file there, before it stops.
fn remove_folder(folder: &Path) {
    const TRIES: usize = 10;
    for _ in 0..TRIES {
        if fs::remove_dir_all(folder).is_ok() || !folder.exists() {
            return;
        }
        thread::sleep(Duration::from_millis(5));
    }
}

/// What a signal finds.
#[derive(Default)]
pub struct Guard {
    made: Mutex<Made>,
    is_ending: AtomicBool,
}

impl Guard {
    /// Begins to wait for signals, but for those that are to be ignored.
    pub fn begin(start: Start) -> Arc<Self> {
        let guard = Arc::new(Guard::default());
        let mut numbers = vec![SIGHUP, SIGINT, SIGQUIT, SIGPIPE, SIGTERM];
        numbers.retain(|&number| !start.ignores(number));
        let set = system::hold_back(&numbers);
        let watched = Arc::clone(&guard);
        let waiting = thread::Builder::new().spawn(move || watched.end(system::wait_for(&set)));
        if let Err(error) = waiting {
            eprintln!("git cgraph: no thread can be started: {error}");
            std::process::exit(128);
        }
        guard
    }

    /// Holds signals up for a moment: until what comes back is dropped, none ends the program.
    pub fn moment(&self) -> MutexGuard<'_, Made> {
        self.made.lock().unwrap_or_else(PoisonError::into_inner)
    }

    /// Waits for the end, where a signal came. After this call what a process answered was not cut
    /// short by that signal.
    pub fn stop_where_ending(&self) {
        while self.is_ending.load(Ordering::SeqCst) {
            thread::park();
        }
    }

    /// Removes all that was made, and ends the program.
    pub fn exit(&self, status: i32) -> ! {
        self.stop_where_ending();
        self.moment().remove();
        std::process::exit(status)
    }

    /// Ends all that was started, and then the program.
    fn end(&self, number: i32) -> ! {
        let mut made = self.moment();
        self.is_ending.store(true, Ordering::SeqCst);
        end_all_below(std::process::id());
        made.remove();
        system::end_by(number)
    }
}

/// Ends the processes that a process has started, as long as some of them run. A shell says nothing
/// of a child that SIGPIPE ends, so that comes first.
fn end_all_below(process: u32) {
    const PATIENCE: usize = 20;
    for round in 0.. {
        let running = started_by(process);
        if running.is_empty() {
            return;
        }
        let number = match round {
            0 => SIGPIPE,
            1..=PATIENCE => SIGTERM,
            _ => SIGKILL,
        };
        running.iter().for_each(|&process| system::send(process, number));
        thread::sleep(Duration::from_millis(if round == 0 { 10 } else { 100 }));
    }
}

/// The processes that run below one, each before those that it has started: whoever is ended does
/// nothing more when these end.
fn started_by(process: u32) -> Vec<i32> {
    let parents: HashMap<i32, i32> = fs::read_dir("/proc")
        .into_iter()
        .flatten()
        .flatten()
        .filter_map(|entry| entry.file_name().to_str()?.parse().ok())
        .filter_map(|number: i32| {
            let stat = fs::read(format!("/proc/{number}/stat")).ok()?;
            Some((number, running_parent(&String::from_utf8_lossy(&stat))?))
        })
        .collect();
    let root = process as i32;
    let mut found: Vec<(usize, i32)> = parents
        .keys()
        .filter_map(|&number| Some((depth(&parents, number, root)?, number)))
        .collect();
    found.sort_unstable();
    found.into_iter().map(|(_, number)| number).collect()
}

/// The parent that a line of /proc/N/stat names, unless the process has ended.
fn running_parent(stat: &str) -> Option<i32> {
    let mut words = stat.rsplit_once(") ")?.1.split(' ');
    match words.next()? {
        "Z" | "X" => None,
        _ => words.next()?.parse().ok(),
    }
}

/// How many steps a process is below another, if it is.
fn depth(parents: &HashMap<i32, i32>, process: i32, root: i32) -> Option<usize> {
    let above = |&process: &i32| parents.get(&process).copied();
    std::iter::successors(above(&process), above)
        .take(parents.len() + 1)
        .position(|parent| parent == root)
}

#[cfg(test)]
mod tests {
    use super::*;

    #[test]
    fn a_name_may_have_blanks_and_brackets() {
        assert_eq!(running_parent("12 (a ) b) S 7 12 12"), Some(7));
        assert_eq!(running_parent("12 (sh) Z 7 12 12"), None);
        assert_eq!(running_parent("12"), None);
    }

    #[test]
    fn whoever_started_others_comes_before_them() {
        let parents = HashMap::from([(5, 1), (6, 5), (7, 6), (8, 1), (9, 9)]);
        assert_eq!(depth(&parents, 6, 5), Some(0));
        assert_eq!(depth(&parents, 7, 5), Some(1));
        assert_eq!(depth(&parents, 8, 5), None);
        assert_eq!(depth(&parents, 9, 5), None);
    }

    #[test]
    fn a_process_that_was_started_is_found_and_ended() {
        let mut child = std::process::Command::new("sleep").arg("30").spawn().unwrap();
        let found = started_by(std::process::id());
        assert!(found.contains(&(child.id() as i32)));
        system::send(child.id() as i32, SIGTERM);
        assert!(!child.wait().unwrap().success());
    }
}
