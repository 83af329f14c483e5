//! `measure PRESENT ABSENT POSITIONS ANY NEWEST LAYER CHAIN-LAYER..`: times reads, checks and queries of commit-graphs through
//! the Rust crate, in the lines of measure.c.

use commitgraph::{Checked, Commit, Graph, Position};
use std::convert::Infallible;
use std::time::Instant;

const ID_LEN: usize = 20;
const CALLS: u32 = 100_000_000;

/// How many numbers came out, and their sum.
#[derive(Default)]
struct Seen {
    count: u64,
    sum: u64,
}

impl Seen {
    #[inline(always)]
    fn add(&mut self, number: impl Into<u64>) {
        self.count += 1;
        self.sum = self.sum.wrapping_add(number.into());
    }

    #[inline(always)]
    fn add_parents(&mut self, commit: Commit<'_>) {
        for parent in commit.iter_parents() {
            self.add(parent.map_or(u64::MAX, |pos| pos.0.into()));
        }
    }
}

struct Inputs {
    present: Vec<u8>,
    absent: Vec<u8>,
    positions: Vec<u8>,
    pairs: [Vec<u8>; 2],
}

fn lookups(graph: &Graph, ids: &[u8]) -> Seen {
    let mut seen = Seen::default();
    for id in ids.chunks_exact(ID_LEN) {
        if let Some(pos) = graph.lookup(id) {
            seen.add(pos.0);
        }
    }
    seen
}

fn iterate(graph: &Graph) -> Seen {
    let mut seen = Seen::default();
    for commit in graph.iter_commits() {
        seen.add_parents(commit);
    }
    seen
}

fn firsts(graph: &Graph) -> Seen {
    let mut seen = Seen::default();
    for pos in 0..graph.num_commits() {
        if let Some(first) = graph.commit_at(Position(pos)).parent1().unwrap() {
            seen.add(first.0);
        }
    }
    seen
}

/// All parents in blocks. Most commits have one, and LLVM makes of a loop over a slice one for long slices.
fn blocks(graph: &Graph) -> Seen {
    let mut seen = Seen::default();
    for block in graph.parent_blocks() {
        for parents in block.iter() {
            match parents.unwrap() {
                [parent] => seen.add(parent.0),
                parents => parents.iter().for_each(|parent| seen.add(parent.0)),
            }
        }
    }
    seen
}

fn records(graph: &Graph) -> Seen {
    let mut seen = Seen::default();
    for record in graph.iter_records() {
        seen.add(record.generation);
        seen.add(record.committer_timestamp);
    }
    seen
}

fn jumps(graph: &Graph, positions: &[u8]) -> Seen {
    let mut seen = Seen::default();
    for place in positions.chunks_exact(4) {
        let commit = graph.commit_at(Position(u32::from_be_bytes(place.try_into().unwrap())));
        let record = commit.record();
        seen.add(record.generation);
        seen.add(record.committer_timestamp);
        seen.add_parents(commit);
    }
    seen
}

fn integrity(graph: &Graph) -> Seen {
    let mut seen = Seen::default();
    let outcome = graph.verify_integrity(|_| Ok::<_, Infallible>(())).unwrap();
    seen.add(outcome.num_commits);
    seen.add(outcome.longest_path_length.map_or(0, |longest| u64::from(longest) + 1));
    for (parents, commits) in outcome.parent_counts {
        seen.add(u64::from(parents) * u64::from(commits));
    }
    seen
}

fn calls(graph: &Graph) -> Seen {
    let mut seen = Seen::default();
    for _ in 0..CALLS {
        seen.add(graph.num_layers() as u64);
    }
    seen
}

/// Walks between pairs of commits, from the first to the second; and whether there is one, by a call each, and for all in one call.
fn queries(layers: &str, kind: &str, graph: &Checked, ids: &[u8]) {
    let position = |id: &[u8]| graph.graph().lookup(id).unwrap();
    let pair = |ids: &[u8]| (position(&ids[ID_LEN..]), position(&ids[..ID_LEN]));
    let pairs: Vec<_> = ids.chunks_exact(2 * ID_LEN).map(pair).collect();
    let (mut walks, mut commits, mut visits, mut yes) = (0, 0, 0, 0);
    let start = Instant::now();
    for &(ancestor, descendant) in &pairs {
        let reached = graph.ancestor_walk(descendant, ancestor).unwrap();
        visits += u64::from(reached.visits);
        walks += u64::from(reached.walk.is_some());
        commits += reached.walk.map_or(0, |walk| walk.len() as u64);
    }
    println!("{layers}-{kind}-walk {} {walks} {commits} {visits}", start.elapsed().as_nanos());
    let start = Instant::now();
    for &(ancestor, descendant) in &pairs {
        yes += u64::from(graph.is_ancestor(ancestor, descendant).unwrap());
    }
    println!("{layers}-{kind}-yes {} {yes} 0", start.elapsed().as_nanos());
    let start = Instant::now();
    let yes = graph.are_ancestors(&pairs).unwrap().into_iter().filter(|found| *found).count();
    println!("{layers}-{kind}-many {} {yes} 0", start.elapsed().as_nanos());
}

fn timed<T>(layers: &str, name: &str, call: impl FnOnce() -> T, seen: impl FnOnce(&T) -> Seen) -> T {
    let start = Instant::now();
    let answer = call();
    let taken = start.elapsed().as_nanos();
    let Seen { count, sum } = seen(&answer);
    println!("{layers}-{name} {taken} {count} {sum}");
    answer
}

fn measure(layers: &str, inputs: &Inputs, paths: &[String]) {
    let files: Vec<(&'static [u8], &str)> = paths.iter().map(|path| (&*std::fs::read(path).unwrap().leak(), "-")).collect();
    let commits = |graph: &Graph| Seen { count: 1, sum: graph.num_commits().into() };
    let graph = timed(layers, "open", || Graph::of_bytes(&files).unwrap(), commits);
    let pass = |name, pass: &dyn Fn() -> Seen| {
        timed(layers, name, pass, |seen| Seen { count: seen.count, sum: seen.sum });
    };
    pass("present", &|| lookups(&graph, &inputs.present));
    pass("absent", &|| lookups(&graph, &inputs.absent));
    pass("iterate", &|| iterate(&graph));
    pass("first", &|| firsts(&graph));
    pass("blocks", &|| blocks(&graph));
    pass("records", &|| records(&graph));
    pass("commit_at", &|| jumps(&graph, &inputs.positions));
    pass("integrity", &|| integrity(&graph));
    pass("calls", &|| calls(&graph));
    drop(graph);
    let checked = timed(layers, "open_checked", || Checked::of_bytes(&files).unwrap(), |checked| commits(checked.graph()));
    queries(layers, "any", &checked, &inputs.pairs[0]);
    queries(layers, "newest", &checked, &inputs.pairs[1]);
    drop(checked);
    timed(layers, "open_lent", || Graph::of_static(&files).unwrap(), commits);
}

fn main() {
    let words: Vec<String> = std::env::args().collect();
    let [_, present, absent, positions, any, newest, layers @ ..] = &words[..] else {
        panic!("usage: measure PRESENT ABSENT POSITIONS ANY NEWEST LAYER CHAIN-LAYER..")
    };
    let read = |path: &String| std::fs::read(path).unwrap();
    let pairs = [read(any), read(newest)];
    let inputs = Inputs { present: read(present), absent: read(absent), positions: read(positions), pairs };
    measure("layer", &inputs, &layers[..1]);
    measure("chain", &inputs, &layers[1..]);
}
