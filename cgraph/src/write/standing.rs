//! The layers that stand, and the commits that they lack.

use std::fs::{self, File, OpenOptions};
use std::io::{self, BufRead, BufReader, Write};
use std::os::unix::fs::symlink;
use std::path::{Path, PathBuf};
use std::process::{Child, Command, Stdio};

use super::{Layer, Writer, CHAIN_FILE, NEW, NO_FILE};
use crate::error::Error;
use crate::graph::{layer_name, Graph, Kind};
use crate::ids::{new_commits, Ids};
use crate::target::Halt;
use crate::text::text_of;

const NO_LAYERS: &str = "the layers that stand could not be read";

impl Writer<'_> {
    /// `historytool`, which is asked about the commit-graph that stands.
    fn ask_graph(&self, words: &[&str]) -> Command {
        let mut tool = Command::new(&self.historytool);
        if let Some(place) = &self.place {
            let (word, rest) = words.split_first().unwrap_or((&"", &[]));
            tool.args([word, place.graph]).args(rest).current_dir(&place.folder);
        }
        tool.stdin(Stdio::null());
        tool
    }

    /// Notes how many commits each layer that stands has, and its checksum, the lowest first. Both
    /// programs have to find them right: on top of others nothing is written.
    pub(super) fn read_layers(&mut self, graph: &Graph) -> Result<(), Halt> {
        if let Some(line) = graph.refused_by_git(self.question.repository.hash) {
            return Err(Halt::Refused(line));
        }
        let place = graph.place(self.question.scratch, true);
        self.place = Some(place.map_err(|error| Halt::plain(128, error))?);
        let (status, shown) = self.question.session.output(&mut self.ask_graph(&["show"]));
        let shown = String::from_utf8_lossy(&shown).into_owned();
        match status {
            0 => self.layers = layers_in(&shown),
            1 => return Err(Halt::Refused(shown.lines().last().unwrap_or_default().to_owned())),
            _ => return Err(self.refuse_unread(NO_LAYERS)),
        }
        Ok(())
    }

    /// The commits of all layers that stand.
    fn stored(&self) -> u64 {
        self.layers.iter().map(|layer| layer.commits).sum()
    }

    /// The commits of the layers that stay.
    pub(super) fn base(&self) -> u64 {
        self.layers.iter().take(self.kept).map(|layer| layer.commits).sum()
    }

    /// The commits that references lead to and that do not stand in the commit-graph. What stands
    /// there was found right, and has the ancestors of its commits, so that Git may go by it here.
    pub(super) fn find_new(&self) -> Result<Ids, Halt> {
        const NEWEST: [&str; 2] = ["--max-count=10000", "--max-count=100000"];
        let unread = |_| self.refuse_unread(Error::NotCompared.to_string().as_str());
        let tips = Ids::of_file(&self.list("tips", &["--no-walk"])?).map_err(unread)?;
        for most in NEWEST {
            let path = self.list("newest", &["--parents", most])?;
            let newest = fs::read_to_string(&path).map_err(unread)?;
            let asked = Ids::of_file(&path).map_err(unread)?;
            let stored = self.stored_among(|id| asked.has(id) || tips.has(id))?;
            if let Some(new) = new_commits(&tips, &newest, &stored) {
                return Ids::read(new.join("\n").as_bytes()).map_err(unread);
            }
        }
        let reachable = Ids::of_file(&self.list("reachable", &[])?).map_err(unread)?;
        let stored = self.stored_among(|id| reachable.has(id))?;
        Ok(reachable.without(&stored))
    }

    /// Those ids of the commit-graph that somebody asks for.
    fn stored_among(&self, is_asked: impl Fn(&[u8]) -> bool) -> Result<Ids, Halt> {
        let session = self.question.session;
        let refused = || self.refuse_unread(Error::NotCompared.to_string().as_str());
        let range = ["ids", "0", &self.stored().to_string()];
        let mut child =
            session.spawn(self.ask_graph(&range).stdout(Stdio::piped())).map_err(|_| refused())?;
        let mut found = Vec::new();
        if let Some(out) = child.stdout.take() {
            for line in BufReader::new(out).split(b'\n').map_while(Result::ok) {
                if is_asked(&line) {
                    found.extend_from_slice(&line);
                    found.push(b'\n');
                }
            }
        }
        match session.wait(&mut child) {
            0 => Ids::read(&found[..]).map_err(|_| refused()),
            _ => Err(refused()),
        }
    }

    /// Lists commits into a file, by some options of `git rev-list`, and by the commit-graph where
    /// Git has it.
    fn list(&self, name: &str, options: &[&str]) -> Result<PathBuf, Halt> {
        let session = self.question.session;
        let path = self.scratch.join(name);
        let file = File::create(&path).map_err(|_| self.refuse_listing())?;
        let mut git = session.git();
        git.env("GIT_FLUSH", "0").env("GIT_GRAFT_FILE", "/dev/null/none");
        git.arg("--no-replace-objects");
        if self.question.named().is_some() {
            git.args(["-c", "core.commitGraph=false"]);
        }
        git.arg("rev-list").args(options).arg("--glob=refs/*").stdout(file).stderr(Stdio::piped());
        let ended = session.spawn(&mut git).and_then(Child::wait_with_output);
        session.guard.stop_where_ending();
        match ended {
            Ok(ended) if ended.status.success() => Ok(path),
            ended => {
                session.tell(&text_of(&ended.map_or(Vec::new(), |ended| ended.stderr)));
                Err(self.refuse_listing())
            }
        }
    }

    /// Chooses how many layers stay as they are. As Git does, a layer takes in those below that are
    /// no more than twice as large as all that it has then, but for layers of other object folders.
    /// A single file of another object folder cannot be a layer, and is taken in.
    pub(super) fn choose_layers(&mut self, graph: &Graph, count: u64) {
        let files = graph.layer_files();
        let mut size = count;
        self.kept = self.layers.len();
        while let Some(layer) = self.kept.checked_sub(1).and_then(|at| self.layers.get(at)) {
            let is_inside =
                files.get(self.kept - 1).is_some_and(|file| file.starts_with(&self.target.folder));
            let stays =
                if is_inside { layer.commits > 2 * size } else { graph.kind == Kind::Chain };
            if stays {
                break;
            }
            size += layer.commits;
            self.kept -= 1;
        }
    }

    /// Lists the new commits and those of the layers that are taken in, each once, but for commits
    /// that are gone.
    pub(super) fn take_in(&self, new: Ids) -> Result<(), Halt> {
        let refused = || self.refuse_unread(NO_LAYERS);
        let path = self.scratch.join("new-ids");
        let (base, total) = (self.base(), self.stored());
        let mut all = Vec::new();
        if base < total {
            let taken = self.scratch.join("taken");
            let file = File::create(&taken).map_err(|_| refused())?;
            let session = self.question.session;
            let range = ["ids", &base.to_string(), &total.to_string()];
            if session.status(self.ask_graph(&range).stdout(file)) != 0 {
                return Err(refused());
            }
            let mut git = session.git_alone();
            git.args(["cat-file", "--batch-check=%(objectname) %(objecttype)", "--buffer"]);
            git.stdin(File::open(&taken).map_err(|_| refused())?);
            let (status, types) = session.output(&mut git);
            if status != 0 {
                return Err(refused());
            }
            for line in types.split(|&byte| byte == b'\n') {
                if let Some(id) = line.strip_suffix(b" commit") {
                    all.extend_from_slice(id);
                    all.push(b'\n');
                }
            }
        }
        new.write(&mut all).map_err(|_| refused())?;
        let written = Ids::read(&all[..]).and_then(|ids| ids.write(File::create(&path)?));
        written.map_err(|_| refused())
    }

    /// Puts the layers that are kept there.
    pub(super) fn link_layers(&self, graph: &Graph) -> Result<(), Halt> {
        let files = graph.layer_files();
        for (layer, file) in self.layers.iter().take(self.kept).zip(files) {
            self.link_layer(&file, &layer.checksum).map_err(|_| self.refuse_unread(NO_FILE))?;
        }
        Ok(())
    }

    pub(super) fn link_layer(&self, file: &Path, checksum: &str) -> io::Result<()> {
        let folder = self.scratch.join(NEW);
        symlink(file, folder.join(layer_name(checksum.as_bytes())))?;
        let mut chain = OpenOptions::new().append(true).open(folder.join(CHAIN_FILE))?;
        chain.write_all(format!("{checksum}\n").as_bytes())
    }
}

/// The layers that `historytool show` tells of.
fn layers_in(shown: &str) -> Vec<Layer> {
    let (mut layers, mut commits) = (Vec::new(), 0);
    for line in shown.lines() {
        let words: Vec<&str> = line.split(' ').collect();
        match words[..] {
            ["layer", _, "commits", count, ..] => commits = count.parse().unwrap_or(0),
            ["checksum", checksum] => {
                layers.push(Layer { commits, checksum: checksum.to_owned() });
            }
            _ => {}
        }
    }
    layers
}

#[cfg(test)]
mod tests {
    use super::*;

    #[test]
    fn layers_that_are_shown() {
        let shown = "layer 0 commits 4 hash sha1 bases 0 dates yes filters none\nchecksum ab\nchunks OIDF 1024\n\
                     layer 1 commits 2 hash sha1 bases 1 dates yes filters none\nchecksum cd\nright\n";
        let found: Vec<_> =
            layers_in(shown).into_iter().map(|it| (it.commits, it.checksum)).collect();
        assert_eq!(found, [(4, "ab".to_owned()), (2, "cd".to_owned())]);
    }
}
