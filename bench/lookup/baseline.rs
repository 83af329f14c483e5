//! What the program in `main.rt.txt` does, in plain Rust: the same decoded vectors, the same checks.

mod check;
mod layer;
mod sha1;

use check::{verify_checksum, verify_integrity};
use layer::{Chain, Commit, ID_LEN, Id, Layer};
use std::time::{Duration, Instant};
use std::{env, fs};

/// How many numbers a pass gave, and their sum.
#[derive(Default)]
struct Seen {
    count: u64,
    sum: u64,
}

impl Seen {
    fn add(&mut self, number: u64) {
        self.count += 1;
        self.sum = self.sum.wrapping_add(number);
    }

    fn add_commit(&mut self, commit: &Commit<'_>) {
        self.add(u64::from(commit.generation));
        self.add(commit.time);
        for parent in commit.parents() {
            self.add(parent.map_or(u64::MAX, u64::from));
        }
    }
}

fn opened(data: &[u8]) -> Seen {
    let mut seen = Seen::default();
    seen.add(Layer::new(data).unwrap().len().into());
    seen
}

fn lookups(ids: &[u8], lookup: impl Fn(&Id) -> Option<u32>) -> Seen {
    let mut seen = Seen::default();
    for id in ids.as_chunks::<ID_LEN>().0 {
        if let Some(pos) = lookup(id) {
            seen.add(u64::from(pos));
        }
    }
    seen
}

fn walk(layers: &[Layer<'_>]) -> Seen {
    let mut seen = Seen::default();
    for layer in layers {
        for parents in layer.all_parents() {
            for parent in parents {
                seen.add(parent.map_or(u64::MAX, u64::from));
            }
        }
    }
    seen
}

fn jumps<'a>(positions: &[u8], commit_at: impl Fn(u32) -> Commit<'a>) -> Seen {
    let mut seen = Seen::default();
    for place in positions.as_chunks().0 {
        seen.add_commit(&commit_at(u32::from_be_bytes(*place)));
    }
    seen
}

fn checksums(chain: &Chain<'_>) -> Seen {
    let mut seen = Seen::default();
    for layer in &chain.layers {
        seen.add(verify_checksum(layer).into());
    }
    seen
}

/// The statistics of a right graph.
fn integrity(chain: &Chain<'_>) -> Seen {
    let mut seen = Seen::default();
    let outcome = verify_integrity(chain, |_| ());
    if let Ok(outcome) = outcome {
        seen.add(outcome.num_commits.into());
        seen.add(outcome.longest.into());
        for (parents, commits) in outcome.parent_counts {
            seen.add(u64::from(parents) * u64::from(commits));
        }
    }
    seen
}

fn timed(name: &str, pass: impl Fn() -> Seen) {
    let start = Instant::now();
    let seen = pass();
    let taken: Duration = start.elapsed();
    println!("{name} {} {} {}", taken.as_nanos(), seen.count, seen.sum);
}

fn time_reads(name: &str, chain: &Chain<'_>, [present, absent, positions]: [&[u8]; 3]) {
    timed(&format!("{name}-present"), || {
        lookups(present, |id| chain.lookup(id))
    });
    timed(&format!("{name}-absent"), || {
        lookups(absent, |id| chain.lookup(id))
    });
    timed(&format!("{name}-iterate"), || walk(&chain.layers));
    timed(&format!("{name}-commit_at"), || {
        jumps(positions, |pos| chain.commit_at(pos))
    });
}

fn time_checks(name: &str, chain: &Chain<'_>) {
    timed(&format!("{name}-checksum"), || checksums(chain));
    timed(&format!("{name}-integrity"), || integrity(chain));
}

/// Checks the layer of a file, and says how many commits it has.
fn verify(path: &str) {
    let data = fs::read(path).unwrap();
    let chain = Chain::new(vec![Layer::new(&data).unwrap()]);
    let Ok(outcome) = verify_integrity(&chain, |_| ()) else {
        panic!("the layer is wrong")
    };
    println!("{} commits", outcome.num_commits);
}

fn main() {
    let paths: Vec<String> = env::args().skip(1).collect();
    match &paths[..] {
        [word, path] if word == "verify" => verify(path),
        _ => time_all(&paths),
    }
}

fn time_all(paths: &[String]) {
    let files: Vec<Vec<u8>> = paths.iter().map(|path| fs::read(path).unwrap()).collect();
    let [present, absent, positions, once, twice, layer, layers @ ..] = &files[..] else {
        panic!(
            "usage: baseline verify PATH | PRESENT ABSENT POSITIONS ONCE TWICE LAYER CHAIN-LAYER.."
        )
    };
    timed("layer-open", || opened(layer));
    let single = |data| Chain::new(vec![Layer::new(data).unwrap()]);
    let layer = single(layer);
    let chain = Chain::new(
        layers
            .iter()
            .map(|data| Layer::new(data).unwrap())
            .collect(),
    );
    time_reads("layer", &layer, [present, absent, positions]);
    time_reads("chain", &chain, [present, absent, positions]);
    time_checks("layer", &layer);
    time_checks("chain", &chain);
    time_checks("once", &single(once));
    time_checks("twice", &single(twice));
}
