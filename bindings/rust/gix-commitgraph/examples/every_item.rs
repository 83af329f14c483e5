//! `every_item COMMAND PATH [ID]`: what `gix-commitgraph` answers, in lines of `graphtool` where that has them. Each public item of
//! 0.39.0 is used, so that it compiles with the original too. What is refused is told by one word, since texts differ.

use gix_commitgraph::{at, file, verify, File, Graph, Position};
use gix_commitgraph::{GENERATION_NUMBER_INFINITY, GENERATION_NUMBER_MAX, MAX_COMMITS};
use gix_hash::{oid, Kind, ObjectId};
use std::collections::{BTreeMap, HashMap, HashSet};
use std::fmt::{Debug, Write};
use std::path::{Path, PathBuf};
use std::process::ExitCode;

/// The lines of a command, or `None` where something is refused.
type Answer = Option<String>;

fn main() -> ExitCode {
    signatures();
    let words: Vec<String> = std::env::args().skip(1).collect();
    let words: Vec<&str> = words.iter().map(|word| &word[..]).collect();
    let answer = match words[..] {
        ["list", path] => list(Path::new(path)),
        ["verify", path] => verify(Path::new(path)),
        ["find", path, id] => find(Path::new(path), id),
        ["items", path] => items(Path::new(path)),
        ["walk", path] => walk(Path::new(path)),
        ["openers", path] => Some(openers(Path::new(path))),
        _ => {
            eprintln!("usage: every_item list | verify | items | walk | openers PATH, or find PATH ID");
            return ExitCode::from(2);
        }
    };
    print!("{}", answer.as_deref().unwrap_or("refused\n"));
    ExitCode::from(u8::from(answer.is_none()))
}

/// The items that have no generic parameter, by their types.
fn signatures() {
    let _: fn(&File) -> u8 = File::base_graph_count;
    let _: for<'f> fn(&'f File, file::Position) -> file::Commit<'f> = File::commit_at;
    let _: for<'f> fn(&'f File, file::Position) -> &'f oid = File::id_at;
    let _: fn(&File) -> Kind = File::object_hash;
    let _: fn(&File) -> u32 = File::num_commits;
    let _: for<'f> fn(&'f File) -> &'f Path = File::path;
    let _: for<'f> fn(&'f File) -> &'f oid = File::checksum;
    let _: for<'g> fn(&'g Graph, Position) -> file::Commit<'g> = Graph::commit_at;
    let _: for<'g> fn(&'g Graph, Position) -> &'g oid = Graph::id_at;
    let _: fn(&Graph) -> Kind = Graph::object_hash;
    let _: fn(&Graph) -> u32 = Graph::num_commits;
    answers_of_paths([Graph::at, Graph::from_file, Graph::from_info_dir, Graph::from_commit_graphs_dir]);
    let _ = [shared::<File>, shared::<Graph>, shared::<file::Commit<'static>>, shared::<file::commit::Parents<'static>>];
    let _: [u32; 3] = [GENERATION_NUMBER_INFINITY, GENERATION_NUMBER_MAX, MAX_COMMITS];
}

/// What any thread may have, and many at a time.
fn shared<T: Send + Sync>() {}

#[allow(clippy::type_complexity)]
fn answers_of_paths<E: Debug>(_: [fn(&Path) -> Result<Graph, E>; 4]) {}

/// The lines of `graphtool list`; what cannot be decoded of parents is `!`.
fn list(path: &Path) -> Answer {
    let file = File::at(path).ok()?;
    let kind = if file.object_hash() == Kind::Sha1 { "sha1" } else { "sha256" };
    let mut lines = format!("layer {kind} bases {} commits {}\n", file.base_graph_count(), file.num_commits());
    for id in file.iter_base_graph_ids() {
        lines += &format!("base {id}\n");
    }
    lines.extend(file.iter_commits().map(line));
    Some(lines)
}

fn line(commit: file::Commit<'_>) -> String {
    let id: &oid = commit.id();
    let (pos, tree, generation, time) = (commit.position(), commit.root_tree_id(), commit.generation(), commit.committer_timestamp());
    let parents: Vec<_> = commit.iter_parents().map(|parent| parent.map_or("!".to_owned(), |pos: Position| pos.to_string())).collect();
    let first = commit.parent1().map_or("!".to_owned(), |first| first.map_or("-".to_owned(), |pos| pos.to_string()));
    assert_eq!(first, parents.first().map_or("-", |first| first));
    let parents = if parents.is_empty() { "-".to_owned() } else { parents.join(",") };
    format!("{pos} {id} {tree} {generation} {time} {parents}\n")
}

/// The lines of `graphtool verify`.
fn verify(path: &Path) -> Answer {
    let verify::Outcome { longest_path_length, num_commits, parent_counts } = checked(&at(path).ok()?)?;
    let longest = longest_path_length.map_or("none".to_owned(), |longest: u32| longest.to_string());
    let counts: BTreeMap<u32, u32> = parent_counts;
    let counts = counts.iter().map(|(parents, commits)| format!("parents {parents} commits {commits}\n"));
    Some(format!("ok commits {num_commits} longest {longest}\n{}", counts.collect::<String>()))
}

fn checked(graph: &Graph) -> Option<verify::Outcome> {
    graph.verify_integrity(|_| Ok::<_, std::fmt::Error>(())).ok()
}

/// The commits of a graph in their order, and that a position past the last is none.
fn walk(path: &Path) -> Answer {
    let graph = at(path).ok()?;
    let ids: Vec<&oid> = graph.iter_ids().collect();
    let mut lines = String::new();
    for (number, commit) in graph.iter_commits().enumerate() {
        let pos = Position(number as u32);
        assert!(graph.id_at(pos) == commit.id() && ids[number] == commit.id() && graph.commit_at(pos) == commit);
        lines += &format!("{pos} is {}", line(commit));
    }
    std::panic::set_hook(Box::new(|_| {}));
    let past = Position(graph.num_commits());
    let panicked = std::panic::catch_unwind(std::panic::AssertUnwindSafe(|| graph.commit_at(past).generation())).is_err();
    Some(format!("{lines}{} commits, {panicked}\n", ids.len()))
}

/// The line of `graphtool find`.
fn find(path: &Path, id: &str) -> Answer {
    let graph = Graph::at(path).ok()?;
    let id = ObjectId::from_hex(id.as_bytes()).ok()?;
    let pos = graph.lookup(id);
    assert_eq!(pos, graph.lookup(&*id));
    let Some(commit) = graph.commit_by_id(id) else {
        return Some("none\n".to_owned());
    };
    assert!(Some(graph.commit_at(pos?).id()) == Some(commit.id()) && graph.id_at(pos?) == commit.id());
    Some(format!("position {} generation {} time {}\n", pos?, commit.generation(), commit.committer_timestamp()))
}

/// Whether each opener opens a path, and how many commits it finds.
#[allow(clippy::unnecessary_to_owned)]
fn openers(path: &Path) -> String {
    let openers = [Graph::at, Graph::from_file, Graph::from_info_dir, Graph::from_commit_graphs_dir, |path: &Path| path.try_into()];
    let mut lines: String = openers.iter().map(|open| told(open(path))).collect();
    lines += &told(at(path.to_owned()));
    lines += &told(File::at(path).and_then(|file| Graph::new(vec![file])));
    lines += &told(File::try_from(path).and_then(|file| Graph::new(vec![file])));
    lines
}

fn told<E: Debug + ToString>(answer: Result<Graph, E>) -> String {
    match answer {
        Ok(graph) => format!("commits {}\n", graph.num_commits()),
        Err(error) => {
            assert!(!error.to_string().is_empty() && !format!("{error:?}").is_empty());
            "refused\n".to_owned()
        }
    }
}

/// All else that can be asked of the file at a path.
fn items(path: &Path) -> Answer {
    let opened = std::fs::File::open(path).ok()?;
    // SAFETY: nothing writes to the file meanwhile.
    let mapped = unsafe { memmap2::Mmap::map(&opened) }.ok()?;
    let file = File::new(mapped, PathBuf::from(path)).ok()?;
    let mut lines = format!("{file:?} at {}\n{}\n", file.path().display(), file.checksum());
    let _ = writeln!(lines, "checksum {:?}", file.verify_checksum().ok());
    of_commits(&file, &mut lines);
    traversed(&file, &mut lines);
    let graph = Graph::new(vec![file]).ok()?;
    let ids: Vec<&oid> = graph.iter_ids().collect();
    assert!(graph.iter_commits().map(|commit| commit.id()).eq(ids.iter().copied()));
    assert!(ids.iter().all(|id| id.kind() == graph.object_hash()));
    let mut called = 0;
    let few = graph.verify_integrity(|commit: &file::Commit<'_>| {
        called += 1;
        if commit.position().0 < 2 { Ok(()) } else { Err(std::fmt::Error) }
    });
    let _ = writeln!(lines, "passed {} after {called}", few.is_ok());
    if let Some(outcome) = checked(&graph) {
        assert_eq!(outcome.clone(), outcome);
        let _ = writeln!(lines, "{outcome:?}");
    }
    Some(lines)
}

/// What is told of commits, ids and positions of a file.
fn of_commits(file: &File, lines: &mut String) {
    let mut seen = HashSet::new();
    for (number, (id, commit)) in file.iter_ids().zip(file.iter_commits()).enumerate() {
        let pos = file::Position(number as u32);
        assert!(commit.position() == pos && commit.id() == id && file.id_at(pos) == id);
        assert!(file.commit_at(pos) == commit && commit == { commit });
        let parents: file::commit::Parents<'_> = commit.iter_parents();
        let least = parents.size_hint().0;
        assert!(least <= parents.count().max(3));
        seen.insert((pos, Position(pos.0)));
        let _ = writeln!(lines, "{commit:?} {pos:>6} {:<6}. found {:?}", Position(pos.0), file.lookup(id));
    }
    assert_eq!(seen.len(), file.num_commits() as usize);
}

/// What a traversal finds, and on how many commits it calls the processor.
fn traversed(file: &File, lines: &mut String) {
    let mut called = 0;
    let outcome = file.traverse(|commit| {
        called += 1;
        for parent in commit.iter_parents() {
            parent?;
        }
        Ok(())
    });
    let Ok(outcome) = outcome else {
        let _ = writeln!(lines, "traverse refused after {called}");
        return;
    };
    assert_eq!(outcome.clone(), outcome);
    // `max_parents` is always 0 in the original.
    let file::verify::Outcome { max_generation, min_generation, max_parents: _, num_commits, parent_counts } = outcome;
    let counts: HashMap<u32, u32> = parent_counts;
    let counts: BTreeMap<_, _> = counts.into_iter().collect();
    let _ = writeln!(lines, "traversed {called} of {num_commits} generations {min_generation} {max_generation} {counts:?}");
}
