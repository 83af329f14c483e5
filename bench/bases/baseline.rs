//! What the program in `main.rt.txt` does, in plain Rust: the same search, over decoded parents, with
//! marks that are kept from one query to the next, and cleared where a query touched them.

#[allow(dead_code)]
#[path = "../lookup/layer.rs"]
mod layer;

use layer::{Chain, ID_LEN, Id, Layer};
use std::collections::BinaryHeap;
use std::time::Instant;
use std::{env, fs};

/// The greatest generation number that a commit-graph file can hold.
const GENERATION_NUMBER_MAX: u32 = 0x3fff_ffff;

const FIRST: u8 = 1;
const OTHER: u8 = 2;
const BOTH: u8 = FIRST | OTHER;
const STALE: u8 = 4;
const QUEUED: u8 = 8;

/// The parents and the generation number of each commit.
struct History {
    starts: Vec<u32>,
    parents: Vec<u32>,
    generations: Vec<u32>,
}

impl History {
    fn new(chain: &Chain<'_>) -> History {
        let commits: u32 = chain.layers.iter().map(|layer| layer.len()).sum();
        let (mut starts, mut parents) = (vec![0], Vec::new());
        for commit in 0..commits {
            let named = chain.commit_at(commit);
            parents.extend(named.parents().map(|parent| parent.unwrap_or_else(|_| panic!("no parent"))));
            starts.push(parents.len() as u32);
        }
        let generations = (0..commits).map(|commit| chain.generation_at(commit)).collect();
        History { starts, parents, generations }
    }

    fn parents(&self, commit: u32) -> &[u32] {
        &self.parents[self.starts[commit as usize] as usize..self.starts[commit as usize + 1] as usize]
    }
}

/// The search, highest generation numbers first.
struct Search<'a> {
    history: &'a History,
    marks: Vec<u8>,
    queue: BinaryHeap<(u32, u32)>,
    touched: Vec<u32>,
    fresh: usize,
    visits: u64,
}

impl Search<'_> {
    fn new(history: &History) -> Search<'_> {
        let marks = vec![0; history.generations.len()];
        Search { history, marks, queue: BinaryHeap::new(), touched: Vec::new(), fresh: 0, visits: 0 }
    }

    fn add(&mut self, commit: u32, paint: u8) {
        let old = self.marks[commit as usize];
        if old & paint == paint {
            return;
        }
        if old & QUEUED == 0 {
            self.queue.push((self.history.generations[commit as usize], commit));
            if old == 0 {
                self.touched.push(commit);
            }
        } else if old & STALE == 0 {
            self.fresh -= 1;
        }
        let new = old | paint | QUEUED;
        self.fresh += usize::from(new & STALE == 0);
        self.marks[commit as usize] = new;
    }

    fn run(&mut self, first: u32, other: u32) {
        self.add(first, FIRST);
        self.add(other, OTHER);
        while let Some((generation, commit)) = self.queue.pop() {
            if self.fresh == 0 && generation < GENERATION_NUMBER_MAX {
                break;
            }
            self.visits += 1;
            let mark = self.marks[commit as usize] & !QUEUED;
            self.fresh -= usize::from(mark & STALE == 0);
            self.marks[commit as usize] = mark;
            let passed = if mark & BOTH == BOTH { mark | STALE } else { mark };
            let history = self.history;
            for parent in history.parents(commit) {
                self.add(*parent, passed);
            }
        }
    }

    /// The bases in order, and how many commits are on one side alone; and clears all marks.
    fn answer(&mut self) -> (Vec<u32>, u64) {
        let (mut bases, mut apart) = (Vec::new(), 0);
        for commit in self.touched.drain(..) {
            match self.marks[commit as usize] & (BOTH | STALE) {
                BOTH => bases.push(commit),
                FIRST | OTHER => apart += 1,
                _ => (),
            }
            self.marks[commit as usize] = 0;
        }
        bases.sort_unstable();
        self.queue.clear();
        self.fresh = 0;
        (bases, apart)
    }
}

/// With `anew`, memory is asked for again at each pair.
fn run(name: &str, chain: &Chain<'_>, history: &History, ids: &[Id], anew: bool) {
    let positions: Vec<u32> = ids.iter().map(|id| chain.lookup(id).unwrap()).collect();
    let start = Instant::now();
    let (mut count, mut sum, mut apart) = (0u64, 0u64, 0u64);
    let mut search = Search::new(history);
    let mut visits = 0;
    for &[first, other] in positions.as_chunks().0 {
        search.run(first, other);
        let (bases, alone) = search.answer();
        count += bases.len() as u64;
        sum += bases.iter().map(|base| u64::from(*base)).sum::<u64>();
        apart += alone;
        if anew {
            visits += search.visits;
            search = Search::new(history);
        }
    }
    println!("{name} {} {count} {sum} {apart} {}", start.elapsed().as_nanos(), visits + search.visits);
}

fn main() {
    let paths: Vec<String> = env::args().skip(1).collect();
    let files: Vec<Vec<u8>> = paths.iter().map(|path| fs::read(path).unwrap()).collect();
    let [any, newest, same, layers @ ..] = &files[..] else {
        panic!("usage: bases_baseline ANY NEWEST SAME LAYER..")
    };
    let chain = Chain::new(layers.iter().map(|data| Layer::new(data).unwrap()).collect());
    let history = History::new(&chain);
    run("any", &chain, &history, any.as_chunks::<ID_LEN>().0, false);
    run("newest", &chain, &history, newest.as_chunks::<ID_LEN>().0, false);
    run("same", &chain, &history, same.as_chunks::<ID_LEN>().0, false);
    run("anew", &chain, &history, same.as_chunks::<ID_LEN>().0, true);
}
