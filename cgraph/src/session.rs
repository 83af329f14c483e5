//! What one run of the program has: its streams, the guard that a signal finds, and the processes
//! that it starts.

use std::env;
use std::ffi::OsStr;
use std::fs::File;
use std::io::{self, IsTerminal, Write};
use std::os::fd::AsFd;
use std::os::unix::process::ExitStatusExt;
use std::path::{Path, PathBuf};
use std::process::{Child, Command, ExitStatus, Stdio};
use std::sync::Arc;

use crate::commands::Tool;
use crate::error::Error;
use crate::guard::Guard;
use crate::system::{self, Start, SIGPIPE};
use crate::text::{bytes_of, shown};

/// The name by which sentences are said.
pub const NAME: &str = "git cgraph";

/// The status where nobody reads an answer to its end.
pub const UNREAD: i32 = 141;

/// What became of an answer that was written.
#[derive(Clone, Copy, Debug, PartialEq, Eq)]
pub enum Passed {
    Whole,
    /// Nobody reads it any more.
    Unread,
    Failed,
}

/// How a process ended, as a shell says it: by its status, or 128 and the number of a signal.
pub fn status_of(ended: ExitStatus) -> i32 {
    ended.code().unwrap_or_else(|| 128 + ended.signal().unwrap_or(0))
}

/// The signal that such a status tells of.
pub fn signal_in(status: i32) -> Option<i32> {
    (status > 128).then(|| status - 128)
}

/// One run of the program.
pub struct Session {
    pub guard: Arc<Guard>,
    pub start: Start,
    home: Home,
    out: Option<File>,
}

impl Session {
    /// A session of this process, from whose standard output on nothing is left to the end.
    pub fn begin() -> Self {
        let start = Start::of_this();
        let out =
            start.is_open(1).then(|| io::stdout().as_fd().try_clone_to_owned().ok()).flatten();
        Session { guard: Guard::begin(start), start, home: Home::find(), out: out.map(File::from) }
    }

    /// Says a sentence on standard error.
    pub fn say(&self, sentence: &str) {
        self.tell(&format!("{NAME}: {sentence}\n"));
    }

    /// Writes a text to standard error.
    pub fn tell(&self, text: &str) {
        if !text.is_empty() {
            self.guard.stop_where_ending();
            let _ = io::stderr().write_all(&bytes_of(text));
        }
    }

    /// Whether there is a standard output.
    pub fn has_output(&self) -> bool {
        self.out.is_some()
    }

    /// Whether standard error is a terminal.
    pub fn has_terminal(&self) -> bool {
        self.start.is_open(2) && io::stderr().is_terminal()
    }

    /// Writes bytes to standard output.
    pub fn write(&self, bytes: &[u8]) -> Passed {
        self.guard.stop_where_ending();
        match self.out.as_ref().map(|mut out| out.write_all(bytes)) {
            Some(Ok(())) => Passed::Whole,
            Some(Err(error)) if self.is_unread(&error) => Passed::Unread,
            _ => Passed::Failed,
        }
    }

    fn is_unread(&self, error: &io::Error) -> bool {
        error.kind() == io::ErrorKind::BrokenPipe && !self.start.ignores(SIGPIPE)
    }

    /// Git, with no input.
    pub fn git(&self) -> Command {
        let mut git = Command::new("git");
        git.stdin(Stdio::null());
        git
    }

    /// Git, which goes by the commits themselves: the commit-graph may be wrong, and it knows
    /// neither replacements nor grafts.
    pub fn plain_git(&self) -> Command {
        let mut git = self.git();
        git.env("GIT_GRAFT_FILE", "/dev/null/none");
        git.args(["--no-replace-objects", "-c", "core.commitGraph=false"]);
        git
    }

    /// Git, which reads the objects that are here and no others.
    pub fn git_alone(&self) -> Command {
        let mut git = self.git();
        git.env("GIT_NO_LAZY_FETCH", "1").env("GIT_ALLOW_PROTOCOL", "none");
        git.arg("--no-replace-objects");
        git
    }

    /// Starts a process, which ends when this one does.
    pub fn spawn(&self, command: &mut Command) -> io::Result<Child> {
        self.spawn_with(command, false)
    }

    /// The same of one that reads what this program is given to read.
    pub fn spawn_with(&self, command: &mut Command, keeps_input: bool) -> io::Result<Child> {
        system::bind(command, self.start, keeps_input);
        let _moment = self.guard.moment();
        command.spawn()
    }

    /// Waits for the end of a process.
    pub fn wait(&self, child: &mut Child) -> i32 {
        let status = child.wait().map_or(128, status_of);
        self.guard.stop_where_ending();
        status
    }

    /// What a process writes, and its status. Where it cannot be started, that is said.
    pub fn output(&self, command: &mut Command) -> (i32, Vec<u8>) {
        let ended = match self.spawn(command.stdout(Stdio::piped())) {
            Ok(child) => child.wait_with_output(),
            Err(error) => {
                let program = shown(command.get_program());
                self.say(&format!("{program} cannot be started: {error}"));
                Err(error)
            }
        };
        self.guard.stop_where_ending();
        ended.map_or((127, Vec::new()), |ended| (status_of(ended.status), ended.stdout))
    }

    /// The first line of what a process writes, if its status is 0; what it says is left out.
    pub fn line(&self, command: &mut Command) -> Option<String> {
        let (status, out) = self.output(command.stderr(Stdio::null()));
        let text = String::from_utf8_lossy(&out);
        (status == 0).then(|| text.lines().next().unwrap_or_default().to_owned())
    }

    /// Whether a process ends with status 0. What it writes and says is left out.
    pub fn succeeds(&self, command: &mut Command) -> bool {
        self.status(command.stdout(Stdio::null()).stderr(Stdio::null())) == 0
    }

    /// The status of a process.
    pub fn status(&self, command: &mut Command) -> i32 {
        self.spawn(command).map_or(127, |mut child| self.wait(&mut child))
    }

    /// The path of a proved program. In a clone it is built first if a source is newer.
    pub fn program(&self, tool: Tool) -> Result<PathBuf, Error> {
        match &self.home {
            Home::Installed(folder) => Ok(folder.join(tool.name())),
            Home::Clone(top) => {
                let mut build = Command::new(top.join("building/program"));
                let (status, out) = self.output(build.arg(tool.name()).stdin(Stdio::null()));
                let path = out.strip_suffix(b"\n").unwrap_or(&out);
                let path = Path::new(<OsStr as std::os::unix::ffi::OsStrExt>::from_bytes(path));
                (status == 0).then(|| path.to_owned()).ok_or(Error::Unbuilt)
            }
        }
    }

    /// The path of `graphtool`, if it is there. Nothing is built for that.
    pub fn lister(&self) -> Option<PathBuf> {
        let path = match &self.home {
            Home::Installed(folder) => folder.join("graphtool"),
            Home::Clone(top) => top.join("crates/graphtool/out/graphtool"),
        };
        path.is_file().then_some(path)
    }
}

/// Where the proved programs are.
enum Home {
    /// In this folder, beside the program.
    Installed(PathBuf),
    /// In a clone, in which `cargo` has built the program.
    Clone(PathBuf),
}

impl Home {
    /// Those of this program. Its own path has no links.
    fn find() -> Self {
        let path = env::current_exe().unwrap_or_default();
        let folder = path.parent().unwrap_or(Path::new("/")).join("programs");
        match path.ancestors().nth(4) {
            Some(top) if !folder.is_dir() => Home::Clone(top.to_owned()),
            _ => Home::Installed(folder),
        }
    }
}
