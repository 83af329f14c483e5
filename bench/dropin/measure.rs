//! `measure POSITIONS LAYER CHAIN [PASS]`: times reads of commit-graphs by the names of `gix-commitgraph`. A line a figure: its
//! name, its nanoseconds, how many numbers came out, and their sum. A pass that is named is made once more.

use gix_commitgraph::{at, Graph, Position};
use std::time::Instant;

/// How many numbers came out, and their sum.
#[derive(Default)]
struct Seen {
    count: u64,
    sum: u64,
}

impl Seen {
    #[inline(always)]
    fn add(&mut self, number: impl Into<u64>) {
        self.count += 1;
        self.sum = self.sum.wrapping_add(number.into());
    }
}

fn parents(graph: &Graph, _: &[u8]) -> Seen {
    let mut seen = Seen::default();
    for commit in graph.iter_commits() {
        for parent in commit.iter_parents() {
            seen.add(parent.map_or(u64::MAX, |pos| pos.0.into()));
        }
    }
    seen
}

fn numbers(graph: &Graph, _: &[u8]) -> Seen {
    let mut seen = Seen::default();
    for commit in graph.iter_commits() {
        seen.add(commit.generation());
        seen.add(commit.committer_timestamp());
    }
    seen
}

fn ids(graph: &Graph, _: &[u8]) -> Seen {
    let mut seen = Seen::default();
    for commit in graph.iter_commits() {
        seen.add(commit.id().as_bytes()[19]);
    }
    seen
}

fn jumps(graph: &Graph, positions: &[u8]) -> Seen {
    let mut seen = Seen::default();
    for place in positions.chunks_exact(4) {
        let commit = graph.commit_at(Position(u32::from_be_bytes(place.try_into().unwrap())));
        seen.add(commit.generation());
        seen.add(commit.committer_timestamp());
        for parent in commit.iter_parents() {
            seen.add(parent.map_or(u64::MAX, |pos| pos.0.into()));
        }
    }
    seen
}

const PASSES: [(&str, fn(&Graph, &[u8]) -> Seen); 4] =
    [("parents", parents), ("numbers", numbers), ("ids", ids), ("commit_at", jumps)];

fn report(layers: &str, name: &str, start: Instant, seen: Seen) {
    println!("{layers}-{name} {} {} {}", start.elapsed().as_nanos(), seen.count, seen.sum);
}

/// The same jumps by the single calls of the library: of the record, and of the parents.
#[cfg(ours)]
fn calls(path: &str, positions: &[u8]) -> (Instant, Seen) {
    let graph = commitgraph::Graph::at(path).unwrap();
    let start = Instant::now();
    let mut seen = Seen::default();
    for place in positions.chunks_exact(4) {
        let commit = graph.commit_at(Position(u32::from_be_bytes(place.try_into().unwrap())));
        let record = commit.record();
        seen.add(record.generation);
        seen.add(record.committer_timestamp);
        for parent in commit.iter_parents() {
            seen.add(parent.map_or(u64::MAX, |pos| pos.0.into()));
        }
    }
    (start, seen)
}

/// The jumps once more, where the crate makes no calls.
#[cfg(not(ours))]
fn calls(path: &str, positions: &[u8]) -> (Instant, Seen) {
    let graph = at(path).unwrap();
    (Instant::now(), jumps(&graph, positions))
}

fn measure(layers: &str, path: &str, positions: &[u8], again: Option<&str>) {
    let start = Instant::now();
    let graph = at(path).unwrap();
    report(layers, "open", start, Seen { count: 1, sum: graph.num_commits().into() });
    for (name, pass) in PASSES {
        let start = Instant::now();
        let seen = pass(&graph, positions);
        report(layers, name, start, seen);
        if again == Some(name) {
            println!("{layers}-{name}-again 0 {} 0", pass(&graph, positions).count);
        }
    }
    drop(graph);
    if again.is_none() {
        let (start, seen) = calls(path, positions);
        report(layers, "calls", start, seen);
    }
}

fn main() {
    let words: Vec<String> = std::env::args().collect();
    let [_, positions, layer, chain, again @ ..] = &words[..] else {
        panic!("usage: measure POSITIONS LAYER CHAIN [PASS]")
    };
    let positions = std::fs::read(positions).unwrap();
    let again = again.first().map(String::as_str);
    measure("layer", layer, &positions, again);
    measure("chain", chain, &positions, again);
}
