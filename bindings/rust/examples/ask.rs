//! `ask PATH list | verify | distinct | dates | probe NAME | find ID | ancestor ID ID`: answers of the graph at the path, in the
//! lines of `graphtool`, and `dates` and what refuses a `probe` in lines of `historytool check`.

use commitgraph::{Checked, CommitFault, DatesError, Fault, FileError, Graph, GraphError, Kind, LayerFault, ObjectId};
use commitgraph::{OpenError, ParentError, Position, Probe, ProbeError, VerifyError, VerifyOptions};
use std::convert::Infallible;
use std::error::Error;
use std::process::ExitCode;

/// What a command answers: its lines, and whether its status is 0.
type Answer = (String, bool);

fn main() -> ExitCode {
    let words: Vec<String> = std::env::args().skip(1).collect();
    let words: Vec<&str> = words.iter().map(|word| &word[..]).collect();
    let answer = match words[..] {
        [path, "list"] => Graph::at(path).map(|graph| list(&graph)),
        [path, "verify"] => Graph::at(path).map(|graph| verify(&graph, false)),
        [path, "distinct"] => Graph::at(path).map(|graph| verify(&graph, true)),
        [path, "dates"] => Graph::at(path).map(|graph| dates(&graph)),
        [path, "probe", name] => Graph::at(path).map(|graph| probe(&graph, name)),
        [path, "find", id] => Graph::at(path).map(|graph| find(&graph, id)),
        [path, "ancestor", from, to] => Checked::at(path).map(|graph| ancestor(&graph, from, to)),
        _ => {
            eprintln!("usage: ask PATH list | verify | distinct | dates | probe NAME | find ID | ancestor ID ID");
            return ExitCode::from(2);
        }
    };
    let (lines, good) = answer.unwrap_or_else(|error| {
        complain(&error);
        (not_opened(&error, words[1] == "list"), false)
    });
    print!("{lines}");
    ExitCode::from(u8::from(!good))
}

/// The layer and the base ids of a graph of one file.
fn layer_lines(graph: &Graph) -> String {
    let layer = graph.layer(0).expect("it is there");
    let kind = if graph.object_hash() == Kind::Sha1 { "sha1" } else { "sha256" };
    let bases = layer.base_ids();
    let first = format!("layer {kind} bases {} commits {}\n", bases.len(), layer.num_commits());
    bases.fold(first, |lines, id| format!("{lines}base {id}\n"))
}

/// The commits, a line for each, told one by one and many at a time.
fn list(graph: &Graph) -> Answer {
    let mut lines = if graph.num_layers() == 1 { layer_lines(graph) } else { String::new() };
    for ((commit, record), told) in graph.iter_commits().zip(graph.iter_records()).zip(graph.iter_parents()) {
        let parents: Vec<_> = commit.iter_parents().collect();
        assert_eq!(told, parents.iter().copied().collect());
        assert_eq!(told, graph.commit_at(commit.position()).parents());
        assert_eq!(record.generation, commit.generation());
        assert_eq!(record.committer_timestamp, commit.committer_timestamp());
        assert_eq!(commit.parent1(), parents.first().copied().transpose());
        let items: Vec<_> = parents.iter().map(item).collect();
        lines += &format!(
            "{} {} {} {} {} {}\n",
            commit.position().0,
            commit.id(),
            commit.root_tree_id(),
            record.generation,
            record.committer_timestamp,
            if items.is_empty() { "-".to_owned() } else { items.join(",") }
        );
    }
    (lines, true)
}

fn item(parent: &Result<Position, ParentError>) -> String {
    match parent {
        Ok(pos) => pos.0.to_string(),
        Err(error) => format!("!{}", parent_number(*error)),
    }
}

fn verify(graph: &Graph, distinct_ids: bool) -> Answer {
    match graph.verify_integrity_with(VerifyOptions { distinct_ids }, |_| Ok::<_, Infallible>(())) {
        Ok(outcome) => {
            let longest = outcome.longest_path_length.map_or("none".to_owned(), |longest| longest.to_string());
            let mut lines = format!("ok commits {} longest {longest}\n", outcome.num_commits);
            for (parents, commits) in outcome.parent_counts {
                lines += &format!("parents {parents} commits {commits}\n");
            }
            (lines, true)
        }
        Err(VerifyError::Fault(fault)) => (not_right(&fault), false),
        Err(error) => panic!("{error}"),
    }
}

fn dates(graph: &Graph) -> Answer {
    match graph.corrected_dates() {
        Ok(Some(dates)) => {
            let lines: String = dates.iter().map(|date| format!("{date}\n")).collect();
            (format!("dates commits {}\n{lines}", dates.len()), true)
        }
        Ok(None) => ("dates none\n".to_owned(), true),
        Err(error) => (format!("refused dates {}\n", dates_words(error)), false),
    }
}

fn dates_words(error: DatesError) -> String {
    match error {
        DatesError::DataSize { layer } => format!("1 layer {layer}"),
        DatesError::OverflowSize { layer } => format!("2 layer {layer}"),
        DatesError::OverflowIndex { pos } => format!("3 position {}", pos.0),
        DatesError::TooLarge { pos } => format!("4 position {}", pos.0),
        DatesError::Date { pos, expected } => format!("5 position {} expected {expected}", pos.0),
        error => panic!("{error}"),
    }
}

/// For each commit a line with what its filter says of a path.
fn probe(graph: &Graph, name: &str) -> Answer {
    let positions: Vec<_> = (0..graph.num_commits()).map(Position).collect();
    let number = |probe: &Probe| match probe {
        Probe::Absent => "0\n",
        Probe::Possible => "1\n",
        Probe::NotComputed => "2\n",
    };
    match graph.probe_path(name.as_bytes(), &positions) {
        Ok(answers) => {
            let past = graph.probe_path(name.as_bytes(), &[Position(graph.num_commits())]);
            assert_eq!(past, Err(ProbeError::NoSuchPosition { index: 0 }));
            (answers.iter().map(number).collect(), true)
        }
        Err(error) => (format!("refused filters {}\n", filters_words(error)), false),
    }
}

fn filters_words(error: ProbeError) -> String {
    match error {
        ProbeError::IndexSize { layer } => format!("1 layer {layer}"),
        ProbeError::DataSize { layer } => format!("2 layer {layer}"),
        ProbeError::Version { layer, version } => format!("3 layer {layer} version {version}"),
        ProbeError::Hashes { layer, .. } => format!("4 layer {layer}"),
        ProbeError::NoBits { layer } => format!("5 layer {layer}"),
        ProbeError::Falls { pos } => format!("6 position {}", pos.0),
        ProbeError::PastEnd { pos } => format!("7 position {}", pos.0),
        ProbeError::LeftOver { layer } => format!("8 layer {layer}"),
        ProbeError::Settings { layer } => format!("9 layer {layer}"),
        error => panic!("{error}"),
    }
}

fn find(graph: &Graph, id: &str) -> Answer {
    let Some(commit) = ObjectId::from_hex(id).and_then(|id| graph.commit_by_id(id)) else {
        return ("none\n".to_owned(), false);
    };
    let (pos, generation, time) = (commit.position().0, commit.generation(), commit.committer_timestamp());
    (format!("position {pos} generation {generation} time {time}\n"), true)
}

fn ancestor(graph: &Checked, from: &str, to: &str) -> Answer {
    let position = |id| graph.graph().lookup(ObjectId::from_hex(id)?);
    let (Some(from), Some(to)) = (position(from), position(to)) else {
        return (format!("unknown {}\n", if position(from).is_none() { 1 } else { 2 }), false);
    };
    let reached = graph.ancestor_walk(from, to).expect("both are positions of the graph");
    assert_eq!(graph.is_ancestor(to, from), Ok(reached.walk.is_some()));
    let back = graph.is_ancestor(from, to).expect("both are positions of the graph");
    let pairs = [(to, from), (from, to), (to, to)];
    assert_eq!(graph.are_ancestors(&pairs), Ok(vec![reached.walk.is_some(), back, true]));
    let steps = |walk: &Vec<Position>| walk.iter().map(|pos| format!(" {}", pos.0)).collect::<String>();
    let walk = reached.walk.as_ref().map_or("none".to_owned(), |walk| format!("walk{}", steps(walk)));
    (format!("{walk}\nvisits {}\n", reached.visits), reached.walk.is_some())
}

/// The line of a graph that was not opened.
fn not_opened(error: &OpenError, list: bool) -> String {
    match error {
        OpenError::Check(error) => not_right(&error.fault),
        OpenError::Layer { layer, error, .. } => {
            let place = if list { String::new() } else { format!("open 5 layer {layer} ") };
            format!("refused {place}file {}\n", file_number(*error))
        }
        OpenError::Graph { error, .. } => format!("refused open 6 graph {}\n", graph_number(*error)),
        _ => String::new(),
    }
}

/// Says why no graph was opened, what the system says of a file that was not read, and what to do.
fn complain(error: &OpenError) {
    match error.source() {
        Some(source) => eprintln!("ask: {error}: {source}"),
        None => eprintln!("ask: {error}"),
    }
    if !error.advice().is_empty() {
        eprintln!("ask: what to do: {}", error.advice());
    }
}

/// The line of a graph that is not right.
fn not_right(fault: &Fault) -> String {
    let words = match fault {
        Fault::TooManyFiles => "1".to_owned(),
        Fault::BaseCount { layer } => format!("2 layer {layer}"),
        Fault::BaseId { layer, index } => format!("3 layer {layer} index {index}"),
        Fault::Layer { layer, fault: LayerFault::Fan { byte } } => format!("4 layer {layer} fault 3 byte {byte}"),
        Fault::Layer { layer, fault } => format!("4 layer {layer} fault {}", 1 + u32::from(*fault == LayerFault::FileName)),
        Fault::Commit { pos, fault } => format!("5 position {} fault {}", pos.0, commit_number(*fault)),
        Fault::Parent { pos, error } => format!("6 position {} error {}", pos.0, parent_number(*error)),
        Fault::ParentOutOfRange { pos, parent } => format!("7 position {} parent {}", pos.0, parent.0),
        Fault::Generation { pos, expected } => format!("8 position {} expected {expected}", pos.0),
        Fault::DuplicateId { pos, earlier } => format!("11 position {} earlier {}", pos.0, earlier.0),
        fault => panic!("{fault}"),
    };
    format!("refused verify {words}\n")
}

fn commit_number(fault: CommitFault) -> u32 {
    match fault {
        CommitFault::NullId => 1,
        CommitFault::Order => 2,
        CommitFault::NullTree => 3,
        fault => panic!("{fault}"),
    }
}

fn parent_number(error: ParentError) -> u32 {
    match error {
        ParentError::SecondWithoutFirst => 1,
        ParentError::FirstIsEdgeIndex => 2,
        ParentError::NoEdgeList => 3,
        ParentError::EdgeOverflow => 4,
        error => panic!("{error}"),
    }
}

/// The number of a refused file, and where the table of chunks is refused, that of what is wrong with it.
fn file_number(error: FileError) -> &'static str {
    match error {
        FileError::TooShort => "1",
        FileError::Signature => "2",
        FileError::Version => "3",
        FileError::Hash => "4",
        FileError::BaseSize => "6",
        FileError::BaseCount => "7",
        FileError::NoCommitData => "8",
        FileError::CommitDataSize => "9",
        FileError::NoFan => "10",
        FileError::FanSize => "11",
        FileError::NoIds => "12",
        FileError::IdsSize => "13",
        FileError::TooManyEdges => "14",
        FileError::Trailer => "15",
        FileError::BaseMissing => "16",
        FileError::FanFalls => "17",
        FileError::IdCount => "18",
        FileError::RecordCount => "19",
        FileError::NoChunks => "5 chunk 1",
        FileError::TableTooSmall => "5 chunk 2",
        FileError::EarlyEnd => "5 chunk 3",
        FileError::DuplicateChunk => "5 chunk 4",
        FileError::ChunkOutOfFile => "5 chunk 5",
        FileError::ChunkFalls => "5 chunk 6",
        FileError::NoEnd => "5 chunk 7",
        error => panic!("{error}"),
    }
}

fn graph_number(error: GraphError) -> u32 {
    match error {
        GraphError::NoFiles => 1,
        GraphError::TooManyCommits => 2,
        GraphError::HashMismatch { .. } => 3,
        error => panic!("{error}"),
    }
}
