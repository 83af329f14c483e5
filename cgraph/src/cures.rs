//! The commands by which a commit-graph becomes right. None of them changes anything outside of
//! this repository.

use std::fs;
use std::path::{Path, PathBuf};
use std::process::Stdio;

use crate::graph::{Graph, Kind};
use crate::known::Known;
use crate::paths::{is_there, real_path, same_file};
use crate::question::Question;

use crate::text::{quoted, shown};

/// Whether the commit-graph has changed-path filters.
#[derive(Clone, Copy, Debug, PartialEq, Eq)]
pub enum Filtered {
    Yes,
    No,
    /// Nothing tells that any more.
    Unknown,
}

/// What the chain beside a file is.
enum Beside {
    Nothing,
    Right,
    Wrong,
    Unknown,
}

/// What somebody who keeps a foreign commit-graph has to do with it.
#[derive(Clone, Copy, PartialEq, Eq)]
pub enum Wish {
    Mend,
    Write,
    WriteAgain,
}

/// The links of this repository by which Git would write elsewhere.
#[derive(Clone, Debug, Default)]
pub struct Links {
    /// Those that have to go. What stands behind a link to a folder is not looked at.
    paths: Vec<PathBuf>,
    /// The last of them.
    pub astray: PathBuf,
    /// Where that leads.
    pub stray: PathBuf,
}

impl Links {
    /// Looks for them in the own object folder.
    pub fn find(question: &Question) -> Self {
        let info = question.repository.own.join("info");
        let mut links = Links::default();
        for (name, is_folder) in [
            ("commit-graphs/commit-graph-chain", false),
            ("commit-graphs", true),
            ("commit-graph", false),
            ("", true),
        ] {
            let path = if name.is_empty() { info.clone() } else { info.join(name) };
            if !path.is_symlink() || is_own(question, &path) {
                continue;
            }
            links.stray =
                real_path(&path).or_else(|| fs::read_link(&path).ok()).unwrap_or_default();
            links.astray.clone_from(&path);
            if is_folder {
                links.paths.clear();
            }
            links.paths.push(path);
        }
        links
    }

    /// Whether there is none.
    pub fn is_empty(&self) -> bool {
        self.paths.is_empty()
    }

    /// The commands that remove them. A file `alternates` behind one, by which this repository
    /// borrows objects, stays.
    pub fn removed(&self, question: &Question) -> Vec<String> {
        if self.is_empty() {
            return Vec::new();
        }
        let words: Vec<String> = self.paths.iter().map(quoted).collect();
        let mut commands = vec![format!("rm -f {}", words.join(" "))];
        let info = question.repository.own.join("info");
        if self.paths == [info.clone()] && info.join("alternates").is_file() {
            let (info, kept) = (quoted(&info), quoted(self.stray.join("alternates")));
            commands.push(format!("mkdir {info} && cp {kept} {info}"));
        }
        commands
    }

    /// An advice that says besides that they go away, where there are some.
    pub fn told(&self, advice: &str) -> String {
        if self.is_empty() {
            return advice.to_owned();
        }
        format!(
            "{advice}. The commit-graph becomes this repository's own, in the place of a link to \
             '{}'",
            shown(&self.stray)
        )
    }
}

/// Whether what a path leads to lies in a folder of this repository. Those of its submodules are
/// other repositories.
pub fn is_own(question: &Question, path: &Path) -> bool {
    let repository = &question.repository;
    let is_below = |path: &Path, folder: &Path| path != folder && path.starts_with(folder);
    real_path(path).is_some_and(|path| {
        !is_below(&path, &repository.common.join("modules"))
            && (is_below(&path, &repository.own) || is_below(&path, &repository.common))
    })
}

/// The same `git` with some words after it.
pub fn git_with(question: &Question, words: &str) -> String {
    let git = question.git_there();
    if words.is_empty() || (words == "--no-replace-objects" && git.ends_with(words)) {
        return git;
    }
    format!("{git} {words}")
}

/// The commands for one commit-graph.
pub struct Cures<'a> {
    pub question: &'a Question<'a>,
    pub graph: &'a Graph,
    links: Links,
    /// The file of the commit-graph that is not this repository's own, if there is one.
    foreign: Option<PathBuf>,
    pub filtered: Filtered,
}

impl<'a> Cures<'a> {
    /// Looks at the commit-graph: a file of it may be known of which a refusal speaks.
    pub fn new(question: &'a Question<'a>, graph: &'a Graph, file: Option<&Path>) -> Self {
        let links = Links::find(question);
        let mut foreign = None;
        if !is_own(question, &graph.home.join("info")) {
            let path = file.map_or_else(|| graph.main_file(), Path::to_owned);
            let leads_to = if links.is_empty() { None } else { real_path(&path) };
            foreign = Some(leads_to.unwrap_or(path));
        } else if !links.is_empty() {
            foreign = Some(links.stray.clone());
        } else if let (Kind::Chain, Some(file)) = (graph.kind, file) {
            foreign = (!is_own(question, file)).then(|| file.to_owned());
        }
        Cures { question, graph, links, foreign, filtered: filters_of(graph) }
    }

    /// Whether the commit-graph is not this repository's own.
    pub fn is_foreign(&self) -> bool {
        self.foreign.is_some()
    }

    /// The command by which Git writes a commit-graph of all that is reachable, and of what further
    /// words of `git rev-list` lead to. With --reachable Git takes what references lead to; what
    /// else is reachable has to be named.
    pub fn writes(&self, options: &str, more: &str) -> String {
        self.writes_by(&self.question.git_there(), options, more)
    }

    fn writes_by(&self, git: &str, options: &str, more: &str) -> String {
        let filters = if self.filtered == Filtered::Yes { " --changed-paths" } else { "" };
        if more.is_empty() && !self.question.has_heads() {
            return format!("{git} commit-graph write --reachable{options}{filters}");
        }
        format!(
            "{git} rev-list --no-walk --all{more} | {git} commit-graph write --stdin-commits\
             {options}{filters}"
        )
    }

    /// The command by which Git writes this repository's own commit-graph with all commits, if
    /// nothing keeps it from that.
    pub fn write_of_own(&self) -> Option<String> {
        let is_free = !self.is_foreign() && !self.is_hindered(&mut Known::default());
        is_free.then(|| self.writes(self.form(), ""))
    }

    /// The commands that give this repository a commit-graph of its own, with some words after
    /// `git`: `git cgraph write` goes by the commits alone, and then Git adds filters, and commits
    /// to which only a HEAD leads.
    pub fn writes_own(&self, words: &str) -> Vec<String> {
        let mut commands = self.links.removed(self.question);
        let git = git_with(self.question, words);
        commands.push(format!("{git} cgraph write"));
        if self.filtered != Filtered::No || self.question.has_heads() {
            commands.push(self.writes_by(&git, "", ""));
        }
        commands
    }

    /// The option by which Git writes a commit-graph of the form of the one that is there.
    pub fn form(&self) -> &'static str {
        if self.graph.kind == Kind::Chain {
            " --split"
        } else {
            ""
        }
    }

    /// The command that removes the chain. Where its folder or its chain file is a link, that
    /// stays.
    pub fn removes_chain(&self) -> Option<String> {
        let (folder, chain) = (self.graph.folder.join("commit-graphs"), self.graph.chain_file());
        if !folder.is_symlink() && !chain.is_symlink() {
            return removes(&folder);
        }
        let leads_to = |path: &Path| quoted(real_path(path).unwrap_or_default());
        Some(format!("rm -f {} {}/graph-*.graph", leads_to(&chain), leads_to(&folder)))
    }

    /// The commands that write the commit-graph anew, of the same form.
    fn anew(&self) -> Vec<String> {
        let mut commands = Vec::new();
        if self.graph.kind != Kind::Chain {
            commands.extend(removes(&self.graph.file()));
        }
        if self.graph.kind == Kind::Chain || is_there(&self.graph.folder.join("commit-graphs")) {
            commands.extend(self.removes_chain());
        }
        commands.push(self.writes(self.form(), ""));
        commands
    }

    /// What has to be done first, where Git would write no commit-graph here. The answer is false
    /// where it would.
    pub fn is_hindered(&self, known: &mut Known) -> bool {
        let question = self.question;
        let (advice, cure) = if question.is_unused() {
            let advice =
                "Git uses no commit-graph here, and writes none, since core.commitGraph is \
                          false: write it all the same";
            (advice.to_owned(), self.writes_own("-c core.commitGraph=true"))
        } else if question.repository.has_grafts() {
            let grafts = shown(question.repository.grafts());
            let convert = format!("{} replace --convert-graft-file", question.git_here());
            let cure = [vec![convert], self.writes_own("--no-replace-objects")].concat();
            let advice = format!(
                "Git writes no commit-graph where '{grafts}' has commits: make replacements of \
                 them, and write it"
            );
            (advice, cure)
        } else if question.repository.is_shallow {
            let fetch = format!("{} fetch --unshallow", question.git_here());
            let advice = "Git writes no commit-graph in a shallow repository: fetch the whole \
                          history, and write it";
            (advice.to_owned(), [vec![fetch], self.writes_own("")].concat())
        } else if !question.has_commits() {
            let cure = match self.graph.kind {
                Kind::None => vec![self.writes("", "")],
                _ => self.writes_own(""),
            };
            ("no branch or tag leads to a commit yet: make one, and write it".to_owned(), cure)
        } else {
            return false;
        };
        known.advice = self.links.told(&advice);
        known.cure = cure;
        true
    }

    /// What to do about a commit-graph that is not this repository's own. Whoever keeps it has to
    /// do something with it, and this repository may have one of its own.
    pub fn advise_own(&self, known: &mut Known, wish: Wish) {
        let foreign = self.foreign.as_ref().map(shown).unwrap_or_default();
        let words = match wish {
            Wish::Mend => "mend it",
            Wish::Write => "write it",
            Wish::WriteAgain => "write it again",
        };
        let start =
            format!("'{foreign}' is not this repository's own: ask whoever keeps it to {words}");
        known.cure.clear();
        if !self.links.is_empty() {
            known.advice = format!(
                "{start}. To do without it, remove the link that leads there, and write a \
                 commit-graph of this repository's own"
            );
        } else if self.has_own() {
            known.advice =
                format!("{start}. Git looks first at this repository's own, which is another one");
            return;
        } else {
            known.advice = format!(
                "{start}. Git looks first at a commit-graph of this repository's own, which these \
                 commands write"
            );
        }
        known.cure = match wish {
            Wish::Mend => self.writes_own(""),
            _ => [self.links.removed(self.question), vec![self.writes("", "")]].concat(),
        };
    }

    /// Whether this repository has a commit-graph of its own, beside another one that was named.
    fn has_own(&self) -> bool {
        let own = &self.question.repository.own;
        !same_file(&self.graph.home, own)
            && (is_there(&own.join("info/commit-graph"))
                || is_there(&own.join("info/commit-graphs/commit-graph-chain")))
    }

    /// How the commit-graph becomes right. The row of the line says what to do, but for what only a
    /// path of one's own can be asked for: here the whole chain was opened.
    pub fn advise_anew(mut self, known: &mut Known, line: &str) {
        known.note.clear();
        if !self.is_hindered(known) {
            if self.is_foreign() {
                self.advise_own(known, Wish::Mend);
            } else {
                let beside = self.look_beside();
                if matches!(beside, Beside::Right | Beside::Unknown) {
                    return self.advise_beside(known, matches!(beside, Beside::Right));
                }
                if matches!(beside, Beside::Wrong) {
                    if self.graph.as_chain().has_filters() {
                        self.filtered = Filtered::Yes;
                    }
                    known.advice = "write it anew, and without the split commit-graph beside it, \
                                    which is not right either"
                        .to_owned();
                } else if line.starts_with("refused verify 2 ") {
                    known.advice = crate::refusals::ANEW.to_owned();
                }
                known.cure = self.anew();
            }
        }
        if self.filtered == Filtered::Unknown && !known.cure.is_empty() {
            known.note = "Nothing tells any more whether it had changed-path filters: if it had, \
                          put --changed-paths behind the last command"
                .to_owned();
        }
    }

    /// The same where a chain stands beside a file, and is right, or nobody knows what it is: the
    /// file alone goes.
    fn advise_beside(mut self, known: &mut Known, is_right: bool) {
        let had = std::mem::replace(&mut self.filtered, filters_of(&self.graph.as_chain()));
        let file = self.graph.file();
        known.cure = match file.is_symlink() {
            true => vec![format!("rm -f {}", quoted(file))],
            false => removes(&file).into_iter().collect(),
        };
        if !is_right {
            known.advice = "remove this file alone, with the filters that it may have, and see \
                            whether the split commit-graph beside it is right, which Git uses then"
                .to_owned();
            known.cure.push(format!("{} cgraph verify", self.question.git_there()));
        } else if (had, self.filtered) == (Filtered::Yes, Filtered::No) {
            known.advice = "remove this file alone: the split commit-graph beside it is right. It \
                            has no changed-path filters, so let Git write it again"
                .to_owned();
            self.filtered = Filtered::Yes;
            known.cure.push(self.writes(" --split=replace", ""));
        } else {
            known.advice =
                "remove this file alone: the split commit-graph beside it is right, and \
                            Git uses that then. Let Git add the commits that it lacks"
                    .to_owned();
            known.cure.push(self.writes(" --split", ""));
            if (had, self.filtered) == (Filtered::Unknown, Filtered::No) {
                known.note = "Nothing tells any more whether this file had changed-path filters, \
                              which the other has not: if it had, put =replace --changed-paths \
                              behind the last command"
                    .to_owned();
            }
        }
    }

    /// What the chain beside a file is.
    fn look_beside(&self) -> Beside {
        if self.graph.kind != Kind::File || !is_there(&self.graph.chain_file()) {
            return Beside::Nothing;
        }
        let chain = self.graph.as_chain();
        let hash = chain.hash();
        if chain.line_with_cr().is_some()
            || hash.is_some_and(|it| it != self.question.repository.hash)
        {
            return Beside::Wrong;
        }
        match self.verdict_on(&chain).as_deref() {
            Some("refused open 7" | "refused open 3" | "refused verify 10") | None => {
                Beside::Unknown
            }
            Some(line) if line.starts_with("ok ") => Beside::Right,
            Some(line) if line.starts_with("refused ") => Beside::Wrong,
            Some(_) => Beside::Unknown,
        }
    }

    /// What `graphtool verify` says of a chain, if the program is there.
    fn verdict_on(&self, chain: &Graph) -> Option<String> {
        let session = self.question.session;
        let mut lister = std::process::Command::new(session.lister()?);
        let place = chain.place_of_chain(self.question.scratch).ok()?;
        lister.args(["verify", place.graph]).current_dir(&place.folder);
        let (_, out) = session.output(lister.stdin(Stdio::null()).stderr(Stdio::null()));
        String::from_utf8_lossy(&out).lines().next().map(str::to_owned)
    }
}

/// Whether a commit-graph has filters, or may have had some.
fn filters_of(graph: &Graph) -> Filtered {
    if graph.has_filters() {
        Filtered::Yes
    } else if graph.tells_filters() {
        Filtered::No
    } else {
        Filtered::Unknown
    }
}

/// The command that removes what is in the way: a file, or what a link leads to, so that the link
/// stays; a folder with all that it has. A link to a folder goes itself.
fn removes(path: &Path) -> Option<String> {
    if path.is_symlink() && !path.is_dir() {
        path.exists().then(|| format!("rm -f {}", quoted(real_path(path).unwrap_or_default())))
    } else if path.is_dir() && !path.is_symlink() {
        Some(format!("rm -rf {}", quoted(path)))
    } else {
        is_there(path).then(|| format!("rm -f {}", quoted(path)))
    }
}
