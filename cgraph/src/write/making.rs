//! Makes the file: `git rev-list`, `git cat-file` and `historytool write` in a row, and both programs, which check it.

use std::fs::{self, File};
use std::io::{self, Read, Seek, SeekFrom, Write};
use std::path::Path;
use std::process::{Child, ChildStdin, Command, Stdio};
use std::thread;

use super::{Listed, Writer, NO_FILE};
use crate::error::Error;
use crate::graph::Place;
use crate::objects::is_signal;
use crate::session::{signal_in, UNREAD};
use crate::target::Halt;
use crate::text::{quoted, shown};

/// How the processes of a row ended.
struct Statuses {
    list: i32,
    tee: i32,
    git: i32,
    write: i32,
}

impl Writer<'_> {
    /// Puts the new layer there too. Its checksum stands at its end.
    pub(super) fn add_layer(&self) -> Result<String, Halt> {
        let size = self.question.repository.hash.size();
        let made = checksum_of(&self.single.path, size).and_then(|checksum| {
            self.link_layer(&self.single.path, &checksum)?;
            Ok(checksum)
        });
        made.map_err(|_| self.refuse_unread(NO_FILE))
    }

    /// Makes a file of the commits that are listed, on top of the layers at a path of the folder of
    /// a moment, or of none.
    pub(super) fn make_file(&mut self, listed: &Listed, below: Option<&str>) -> Result<(), Halt> {
        let statuses = self.run_row(listed, below).map_err(|_| self.refuse_unread(NO_FILE))?;
        self.judge(&statuses)
    }

    /// Runs the processes in a row that make the file, and answers how they ended.
    fn run_row(&mut self, listed: &Listed, below: Option<&str>) -> io::Result<Statuses> {
        let session = self.question.session;
        let out = self.single.file.try_clone()?;
        let ids = File::create(self.scratch.join("ids"))?;
        let (mut list, from): (Option<Child>, Box<dyn Read + Send>) = match listed {
            Listed::New => (None, Box::new(File::open(self.scratch.join("new-ids"))?)),
            Listed::ByReferences => {
                let mut child = session.spawn(&mut self.list_referenced())?;
                let out = child.stdout.take().ok_or(io::ErrorKind::BrokenPipe)?;
                (Some(child), Box::new(out))
            }
        };
        let mut cat_file = session.git_alone();
        cat_file.args(["cat-file", "--batch", "--buffer"]);
        let mut git = session.spawn(cat_file.stdin(Stdio::piped()).stdout(Stdio::piped()))?;
        let commits = git.stdout.take().ok_or(io::ErrorKind::BrokenPipe)?;
        let mut tool = Command::new(&self.historytool);
        tool.arg("write").args(below).current_dir(&self.scratch);
        let mut write = session.spawn(tool.stdin(commits).stdout(out))?;
        let to = git.stdin.take().ok_or(io::ErrorKind::BrokenPipe)?;
        let tee = thread::spawn(move || copy_ids(from, ids, to));
        let list = list.as_mut().map_or(0, |child| session.wait(child));
        self.line = Some(self.question.progress.waiting(&session.guard, "Writing commit-graph"));
        Ok(Statuses {
            list,
            tee: tee.join().unwrap_or(128),
            git: session.wait(&mut git),
            write: session.wait(&mut write),
        })
    }

    /// Git, which lists the commits that references lead to, by the commits themselves, and says
    /// meanwhile how many they are, where that takes long.
    fn list_referenced(&self) -> Command {
        let mut git = self.question.session.plain_git();
        git.env("GIT_FLUSH", "0").arg("rev-list").stdout(Stdio::piped());
        git.env("GIT_PROGRESS_DELAY", self.question.progress.delay().unwrap_or_default());
        if self.question.progress.is_shown() {
            git.arg("--progress=Reading commits");
        }
        git.arg("--glob=refs/*");
        git
    }

    /// Whether a file was made. Where the list ended early, the others had a part of it. A program
    /// that ended since nobody read on is not the one that failed.
    fn judge(&self, ended: &Statuses) -> Result<(), Halt> {
        const TOO_LARGE: i32 = 153;
        if ended.write == TOO_LARGE {
            return Err(self.refuse_full());
        }
        for status in [ended.list, ended.tee, ended.git, ended.write] {
            if let Some(number) = signal_in(status).filter(|_| is_signal(status)) {
                return Err(Halt::plain(status, Error::Signal(number)));
            }
        }
        match (ended.list, ended.tee, ended.git, ended.write) {
            (0, 0, 0, 0) => Ok(()),
            (0 | UNREAD, _, _, 1) => Err(self.refused()),
            (_, _, UNREAD, 0) => {
                let reason = "historytool write did not read all commits".to_owned();
                Err(Halt::unwritten(reason, "", Vec::new()))
            }
            (0, 0, status, 0) => Err(Halt::plain(128, Error::GitEnded(status))),
            (0, 1, ..) => Err(Halt::plain(128, Error::ScratchFull)),
            (0 | UNREAD, ..) => Err(self.refuse_full()),
            _ => Err(self.refuse_listing()),
        }
    }

    /// The line of a refusal, which stands in the place of a file. Where there are no commits
    /// nothing is wrong.
    fn refused(&self) -> Halt {
        let is_empty = fs::metadata(self.scratch.join("ids")).is_ok_and(|file| file.len() == 0);
        if is_empty {
            return Halt::Nothing("no reference leads to a commit");
        }
        let written = fs::read(&self.single.path).unwrap_or_default();
        let line = written.split(|&byte| byte == b'\n').next().unwrap_or_default();
        Halt::Refused(String::from_utf8_lossy(line).into_owned())
    }

    /// A file could not be written to its end, as it happens where a disk has no room.
    fn refuse_full(&self) -> Halt {
        let path = &self.single.path;
        Halt::unwritten(
            format!("'{}' could not be written to its end", shown(path)),
            "see whether the disk is full",
            vec![format!("df {}", quoted(path.parent().unwrap_or(Path::new("/"))))],
        )
    }

    /// Whether both programs find right what is written, at a path of the folder of a moment, and
    /// with all of its commits. Meanwhile the bytes go to the disk.
    pub(super) fn check_new(&mut self, path: &'static str) -> Result<(), Halt> {
        let ids = fs::read(self.scratch.join("ids")).unwrap_or_default();
        self.count = ids.iter().filter(|&&byte| byte == b'\n').count() as u64;
        self.place = Some(Place { folder: self.scratch.clone(), graph: path });
        let session = self.question.session;
        let ask = |program: &Path, word: &str| {
            let mut tool = Command::new(program);
            tool.args([word, path]).current_dir(&self.scratch).stdin(Stdio::null());
            session.spawn(tool.stdout(Stdio::piped()))
        };
        let verifying = ask(&self.graphtool, "verify");
        let checking = ask(&self.historytool, "check");
        let synced = self.single.file.sync_all();
        let all = format!("ok commits {} ", self.base() + self.count);
        let (mut is_right, mut lines) = (true, String::new());
        for child in [verifying, checking] {
            let ended = child.and_then(Child::wait_with_output);
            let out = ended
                .as_ref()
                .map_or(String::new(), |it| String::from_utf8_lossy(&it.stdout).into());
            is_right &= ended.is_ok_and(|ended| ended.status.success()) && out.starts_with(&all);
            lines += &out;
        }
        session.guard.stop_where_ending();
        if !is_right {
            let line = lines.lines().find(|line| line.starts_with("refused")).unwrap_or_default();
            return Err(self.refuse_unread(&format!("what was written is refused: {line}")));
        }
        synced.map_err(|_| self.refuse_full())
    }
}

/// Copies ids to a file and to a process, and answers as `tee` ends.
fn copy_ids(mut from: Box<dyn Read + Send>, mut file: File, mut to: ChildStdin) -> i32 {
    let mut status = 0;
    let mut bytes = vec![0; 1 << 16];
    loop {
        match from.read(&mut bytes) {
            Ok(0) => return status,
            Ok(length) => {
                if file.write_all(&bytes[..length]).is_err() {
                    status = 1;
                }
                if to.write_all(&bytes[..length]).is_err() {
                    return UNREAD;
                }
            }
            Err(error) if error.kind() == io::ErrorKind::Interrupted => {}
            Err(_) => return 1,
        }
    }
}

/// The last bytes of a file, in hexadecimal.
fn checksum_of(path: &Path, size: usize) -> io::Result<String> {
    let mut file = File::open(path)?;
    file.seek(SeekFrom::End(-(size as i64)))?;
    let mut bytes = Vec::new();
    file.read_to_end(&mut bytes)?;
    Ok(bytes.iter().map(|byte| format!("{byte:02x}")).collect())
}
