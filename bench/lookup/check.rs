//! The check of a chain of layers: whether it is right, and how many commits have how many parents.

use crate::layer::{Chain, Id, Layer, NO_PARENT, Parents, TOP_BIT, front};
use crate::sha1;
use std::collections::BTreeMap;

const GENERATION_NUMBER_MAX: u32 = 0x3fff_ffff;
const MOST_LAYERS: usize = 256;

/// How many commits' parents are looked up at once.
const BLOCK: usize = 256;

/// In place of a generation number: it has to be looked up for each parent.
const UNKNOWN: u32 = u32::MAX;

pub struct Outcome {
    pub num_commits: u32,
    pub longest: u32,
    pub parent_counts: BTreeMap<u32, u32>,
}

/// The chain is not right.
pub struct Wrong;

fn ensure(right: bool) -> Result<(), Wrong> {
    if right { Ok(()) } else { Err(Wrong) }
}

/// Whether the last bytes of the file are the digest of those before.
pub fn verify_checksum(layer: &Layer<'_>) -> bool {
    let (data, checksum) = layer.data.split_last_chunk().unwrap();
    sha1::digest(data) == *checksum
}

fn checksum<'a>(layer: &Layer<'a>) -> &'a Id {
    layer.data.last_chunk().unwrap()
}

/// The parents of one commit: how many, and the greatest of their generation numbers.
#[derive(Clone, Copy, Default)]
struct Tally {
    count: u32,
    generation: u32,
}

impl Tally {
    fn and(self, generation: u32) -> Tally {
        Tally {
            count: self.count + 1,
            generation: self.generation.max(generation),
        }
    }
}

/// A layer, and what its check has at hand.
struct Check<'a> {
    chain: &'a Chain<'a>,
    layer: &'a Layer<'a>,
    start: u32,
    /// For each word of the extra edge list what the parents from there to the end of its list come
    /// to, if all of them are right.
    lists: Vec<Option<Tally>>,
}

/// Checks all layers, the lowest first.
pub fn verify_integrity(
    chain: &Chain<'_>,
    mut processor: impl FnMut(u32),
) -> Result<Outcome, Wrong> {
    ensure(chain.layers.len() <= MOST_LAYERS)?;
    let mut counts = Counts::default();
    let mut start = 0;
    for (number, layer) in chain.layers.iter().enumerate() {
        ensure(layer.bases.len() == number)?;
        ensure(
            layer
                .bases
                .iter()
                .zip(&chain.layers)
                .all(|(base, below)| base == checksum(below)),
        )?;
        ensure(verify_checksum(layer) && layer.fan.is_sorted())?;
        let mut check = Check {
            chain,
            layer,
            start,
            lists: Vec::new(),
        };
        check.lists = check.summed_lists();
        check.commits(&mut counts, &mut processor)?;
        start += layer.len();
    }
    Ok(counts.outcome(start))
}

impl Check<'_> {
    /// All commits of the layer, a block at a time.
    fn commits(&self, counts: &mut Counts, processor: &mut impl FnMut(u32)) -> Result<(), Wrong> {
        let mut known = [UNKNOWN; BLOCK];
        for from in (0..self.layer.ids.len()).step_by(BLOCK) {
            self.gather(from, &mut known);
            for (pos, known) in (from..self.layer.ids.len()).zip(known) {
                let parents = self.commit(pos, known)?;
                counts.add(parents, self.layer.generations[pos]);
                processor(self.start + pos as u32);
            }
        }
        Ok(())
    }

    /// The greater generation number of each commit's parents, from a position on, where it has one
    /// or two and they stand in this layer.
    fn gather(&self, from: usize, known: &mut [u32; BLOCK]) {
        let generations = &self.layer.generations[..];
        let fields = self.layer.parents[from..].iter();
        for (known, (first, second)) in known.iter_mut().zip(fields) {
            let second = if *second == NO_PARENT { first } else { second };
            let one = generations.get(first.wrapping_sub(self.start) as usize);
            let other = generations.get(second.wrapping_sub(self.start) as usize);
            *known = match (one, other) {
                (Some(one), Some(other)) => *one.max(other),
                _ => UNKNOWN,
            };
        }
    }

    /// One commit: the number of its parents.
    fn commit(&self, pos: usize, known: u32) -> Result<u32, Wrong> {
        ensure(!is_null(&self.layer.ids[pos]))?;
        ensure(pos == 0 || is_before(&self.layer.ids[pos - 1], &self.layer.ids[pos]))?;
        ensure(!is_null(self.layer.root_tree_id(pos)))?;
        let second = self.layer.parents[pos].1;
        let parents = if known != UNKNOWN {
            Tally {
                count: 1 + u32::from(second != NO_PARENT),
                generation: known,
            }
        } else {
            self.parents(self.layer.parents[pos].0, second)?
        };
        let expected = (parents.generation + 1).min(GENERATION_NUMBER_MAX);
        ensure(self.layer.generations[pos] == expected)?;
        Ok(parents.count)
    }

    /// The parents that both fields of a record give.
    fn parents(&self, first: u32, second: u32) -> Result<Tally, Wrong> {
        if first < TOP_BIT && first != NO_PARENT && second >= TOP_BIT {
            let rest = self
                .lists
                .get((second - TOP_BIT) as usize)
                .copied()
                .flatten()
                .ok_or(Wrong)?;
            return Ok(rest.and(self.generation_at(first)?));
        }
        let mut tally = Tally::default();
        for parent in Parents::new(first, second, None) {
            tally = tally.and(self.generation_at(parent.map_err(|_| Wrong)?)?);
        }
        Ok(tally)
    }

    /// The generation number of a parent, which has to stand below the end of the layer.
    fn generation_at(&self, parent: u32) -> Result<u32, Wrong> {
        match parent.checked_sub(self.start) {
            Some(pos) => self
                .layer
                .generations
                .get(pos as usize)
                .copied()
                .ok_or(Wrong),
            None => Ok(self.chain.generation_at(parent)),
        }
    }

    /// What `lists` has, made from the last word to the first.
    fn summed_lists(&self) -> Vec<Option<Tally>> {
        let edges = self.layer.edges.as_deref().unwrap_or_default();
        let mut lists = vec![None; edges.len()];
        let mut rest = None;
        for (list, edge) in lists.iter_mut().zip(edges).rev() {
            if *edge >= TOP_BIT {
                rest = Some(Tally::default());
            }
            let generation = self.generation_at(*edge % TOP_BIT).ok();
            rest = rest
                .zip(generation)
                .map(|(rest, generation)| rest.and(generation));
            *list = rest;
        }
        lists
    }
}

fn is_null(id: &Id) -> bool {
    front(id) == 0 && id[8..].iter().all(|byte| *byte == 0)
}

fn is_before(one: &Id, other: &Id) -> bool {
    front(one) < front(other) || front(one) == front(other) && one < other
}

/// How many commits have how many parents: 0, 1 and 2 apart from the others.
#[derive(Default)]
struct Counts {
    few: [u32; 3],
    many: BTreeMap<u32, u32>,
    longest: u32,
}

impl Counts {
    fn add(&mut self, parents: u32, generation: u32) {
        match self.few.get_mut(parents as usize) {
            Some(count) => *count += 1,
            None => *self.many.entry(parents).or_insert(0) += 1,
        }
        self.longest = self.longest.max(generation);
    }

    fn outcome(mut self, num_commits: u32) -> Outcome {
        let few = (0..).zip(self.few).filter(|(_, commits)| *commits > 0);
        self.many.extend(few);
        Outcome {
            num_commits,
            longest: self.longest,
            parent_counts: self.many,
        }
    }
}
