//! What the program in `main.rt.txt` does, in plain Rust: a breadth-first search for a shortest walk,
//! and a depth-first search for whether there is one, first parents first. Each leaves out the commits
//! whose generation number is below that of the commit that is looked for, and keeps its marks from one
//! query to the next. Where the two commits are one, or their generation numbers allow no walk, nothing
//! is searched.

#[allow(dead_code)]
#[path = "../lookup/layer.rs"]
mod layer;

use layer::{Chain, ID_LEN, Id, Layer};
use std::time::Instant;
use std::{env, fs};

/// Stands where a commit has no mark.
const CLEAR: u32 = u32::MAX;

/// The greatest generation number that a commit-graph file can hold.
const GENERATION_NUMBER_MAX: u32 = 0x3fff_ffff;

/// Searches along parents, one after another.
struct Search<'a> {
    chain: &'a Chain<'a>,
    /// The commits that were reached, in the order in which they were, each once.
    reached: Vec<u32>,
    /// For each commit of the graph, the place of the commit from which it was reached.
    marks: Vec<u32>,
    stack: Vec<u32>,
}

impl<'a> Search<'a> {
    fn new(chain: &'a Chain<'a>) -> Search<'a> {
        let commits = chain.layers.iter().map(|layer| layer.len() as usize).sum();
        Search {
            chain,
            reached: Vec::new(),
            marks: vec![CLEAR; commits],
            stack: Vec::new(),
        }
    }

    fn clear(&mut self) {
        for commit in self.reached.drain(..) {
            self.marks[commit as usize] = CLEAR;
        }
    }

    fn reach(&mut self, commit: u32, child: u32, least: u32) {
        let mark = &mut self.marks[commit as usize];
        if *mark == CLEAR && least <= self.chain.generation_at(commit) {
            *mark = child;
            self.reached.push(commit);
        }
    }

    fn visit(&mut self, place: u32, least: u32) {
        for parent in self.chain.commit_at(self.reached[place as usize]).parents() {
            self.reach(parent.unwrap_or_else(|_| panic!("no parent")), place, least);
        }
    }

    /// The generation number of `to`, where it allows a walk to it.
    fn least(&self, from: u32, to: u32) -> Option<u32> {
        let (above, least) = (self.chain.generation_at(from), self.chain.generation_at(to));
        (least < above || (above == least && least == GENERATION_NUMBER_MAX)).then_some(least)
    }

    /// The number of commits of a shortest walk, 0 where there is none, and the number of visits.
    fn walk(&mut self, from: u32, to: u32) -> (usize, u32) {
        if from == to {
            return (1, 1);
        }
        let Some(least) = self.least(from, to) else {
            return (0, 0);
        };
        self.reach(from, 0, least);
        let mut visits = 0;
        while let Some(&commit) = self.reached.get(visits as usize) {
            let place = visits;
            visits += 1;
            if commit == to {
                return (self.walk_to(place).len(), visits);
            }
            self.visit(place, least);
        }
        (0, visits)
    }

    fn walk_to(&self, place: u32) -> Vec<u32> {
        let mut walk = vec![self.reached[place as usize]];
        let mut reached = place;
        while reached > 0 {
            reached = self.marks[self.reached[reached as usize] as usize];
            walk.push(self.reached[reached as usize]);
        }
        walk.reverse();
        walk
    }

    /// Whether there is a walk.
    fn leads(&mut self, from: u32, to: u32) -> bool {
        if from == to {
            return true;
        }
        let Some(least) = self.least(from, to) else {
            return false;
        };
        self.reach(from, 0, least);
        self.stack.clear();
        self.stack.push(0);
        while let Some(place) = self.stack.pop() {
            if self.reached[place as usize] == to {
                return true;
            }
            let begin = self.reached.len() as u32;
            self.visit(place, least);
            self.stack.extend((begin..self.reached.len() as u32).rev());
        }
        false
    }
}

fn run(name: &str, chain: &Chain<'_>, ids: &[Id]) {
    let positions: Vec<u32> = ids.iter().map(|id| chain.lookup(id).unwrap()).collect();
    let start = Instant::now();
    let mut search = Search::new(chain);
    let (mut walks, mut commits, mut visits) = (0u64, 0u64, 0u64);
    for &[from, to] in positions.as_chunks().0 {
        let (length, visited) = search.walk(from, to);
        search.clear();
        walks += u64::from(length > 0);
        commits += length as u64;
        visits += u64::from(visited);
    }
    println!("{name}-walk {} {walks} {commits} {visits}", start.elapsed().as_nanos());
    let start = Instant::now();
    let mut search = Search::new(chain);
    let mut yes = 0u64;
    for &[from, to] in positions.as_chunks().0 {
        yes += u64::from(search.leads(from, to));
        search.clear();
    }
    println!("{name}-yes {} {yes} 0", start.elapsed().as_nanos());
}

fn main() {
    let paths: Vec<String> = env::args().skip(1).collect();
    let files: Vec<Vec<u8>> = paths.iter().map(|path| fs::read(path).unwrap()).collect();
    let [any, newest, layers @ ..] = &files[..] else {
        panic!("usage: ancestor_baseline ANY NEWEST LAYER..")
    };
    let chain = Chain::new(layers.iter().map(|data| Layer::new(data).unwrap()).collect());
    run("any", &chain, any.as_chunks::<ID_LEN>().0);
    run("newest", &chain, newest.as_chunks::<ID_LEN>().0);
}
