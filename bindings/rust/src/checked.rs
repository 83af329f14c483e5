//! Graphs that a check has found right, and what they alone answer.

use crate::error::fault_of;
use crate::open::{open, Place};
use crate::room::{collected, positions_of, room_for};
use crate::verify::{outcome_of, ROOM};
use crate::{codes, refused, sys, Graph, Limit, OpenError, Outcome, PairError, Position, QueryError, VerifyOptions};
use std::path::Path;

/// A graph that its check has found right.
#[derive(Debug)]
pub struct Checked {
    graph: Graph,
    options: VerifyOptions,
    outcome: Outcome,
}

impl Checked {
    /// Opens the graph at a path, as [`Graph::at`] does, and checks it.
    ///
    /// # Errors
    ///
    /// Those of [`Graph::at`], and then those of [`Checked::of_graph`].
    pub fn at(path: impl AsRef<Path>) -> Result<Checked, OpenError> {
        Checked::at_with(path, VerifyOptions::default())
    }

    /// Opens the graph at a path, as [`Graph::at`] does, and checks it for what the options ask.
    ///
    /// # Errors
    ///
    /// Those of [`Graph::at`], and then those of [`Checked::of_graph`].
    pub fn at_with(path: impl AsRef<Path>, options: VerifyOptions) -> Result<Checked, OpenError> {
        Checked::of_graph(open(path.as_ref(), Place::Anything)?, options)
    }

    /// Opens the graph of one file, and checks it for what the options ask.
    ///
    /// # Errors
    ///
    /// Those of [`Graph::from_file`], and then those of [`Checked::of_graph`].
    pub fn from_file(path: impl AsRef<Path>, options: VerifyOptions) -> Result<Checked, OpenError> {
        Checked::of_graph(open(path.as_ref(), Place::File)?, options)
    }

    /// Opens the graph of an info folder, as [`Graph::from_info_dir`] does, and checks it for what the options ask. Where the
    /// file opens and the check refuses it, the chain is not tried.
    ///
    /// # Errors
    ///
    /// Those of [`Graph::at`], and then those of [`Checked::of_graph`].
    pub fn from_info_dir(path: impl AsRef<Path>, options: VerifyOptions) -> Result<Checked, OpenError> {
        Checked::of_graph(open(path.as_ref(), Place::InfoFolder)?, options)
    }

    /// Opens the graph of a folder with a file `commit-graph-chain`, and checks it for what the options ask.
    ///
    /// # Errors
    ///
    /// Those of [`Graph::from_commit_graphs_dir`], and then those of [`Checked::of_graph`].
    pub fn from_commit_graphs_dir(path: impl AsRef<Path>, options: VerifyOptions) -> Result<Checked, OpenError> {
        Checked::of_graph(open(path.as_ref(), Place::ChainFolder)?, options)
    }

    /// The right graph of layers whose bytes are at hand, each with the path of its file, the lowest first. They are copied.
    ///
    /// # Errors
    ///
    /// Those of [`Graph::of_bytes`], and then `Check` with the first fault.
    pub fn of_bytes(layers: &[(&[u8], &str)]) -> Result<Checked, OpenError> {
        Checked::of_bytes_with(layers, VerifyOptions::default())
    }

    /// The right graph of layers whose bytes are at hand, as by [`Checked::of_bytes`], which keeps what the options ask.
    ///
    /// # Errors
    ///
    /// Those of [`Checked::of_bytes`].
    pub fn of_bytes_with(layers: &[(&[u8], &str)], options: VerifyOptions) -> Result<Checked, OpenError> {
        let mut counts = [sys::Count::default(); ROOM];
        let (graph, verdict) = Graph::opened(layers, |files, raw, verdict| {
            let distinct = options.distinct_ids;
            // SAFETY: as in `Graph::of_bytes`; the other pointers are those of a value, and of an array with its length.
            unsafe {
                sys::cg_open_checked(files.as_ptr(), files.len(), distinct, verdict, counts.as_mut_ptr(), ROOM, raw)
            }
        })?;
        Checked::found_right(graph, options, &verdict, &counts)
    }

    /// Checks a graph that is open, without reading its files again, for what the options ask.
    ///
    /// # Errors
    ///
    /// `Check` with the first fault, or `OutOfMemory`. The graph is dropped then. Of a graph whose bytes were copied, the files are read
    /// once more for the commit that has the fault.
    pub fn of_graph(graph: Graph, options: VerifyOptions) -> Result<Checked, OpenError> {
        Checked::given_back(graph, options, |given, verdict, counts, raw| {
            // SAFETY: `given` is that of an open graph, which no copy of it outlives; `raw` is that of CG_CLOSED, and the other
            // pointers are those of a value, and of an array of ROOM places.
            unsafe { sys::cg_check(given, options.distinct_ids, verdict, counts, ROOM, raw) }
        })
    }

    /// Checks a graph that is open, as [`Checked::of_graph`] does, unless the limit stops the check.
    ///
    /// # Errors
    ///
    /// Those of [`Checked::of_graph`], and `Stopped` at the first commit that the check did not go on with. The graph is dropped
    /// then too.
    pub fn of_graph_within(graph: Graph, options: VerifyOptions, limit: Limit<'_>) -> Result<Checked, OpenError> {
        Checked::given_back(graph, options, |given, verdict, counts, raw| {
            // SAFETY: as in `Checked::of_graph`; the limit borrows its flag, which is not freed.
            unsafe { sys::cg_check_within(given, options.distinct_ids, limit.raw(), verdict, counts, ROOM, raw) }
        })
    }

    /// The graph that a call checks, which is handed one, closes it, and hands it out again where it is right.
    fn given_back(
        mut graph: Graph,
        options: VerifyOptions,
        check: impl FnOnce(*mut sys::Graph, *mut sys::Verdict, *mut sys::Count, *mut sys::Graph) -> u32,
    ) -> Result<Checked, OpenError> {
        let mut counts = [sys::Count::default(); ROOM];
        let mut verdict = sys::Verdict::default();
        let (mut raw, paths) = (sys::CLOSED, std::mem::take(&mut graph.paths));
        // What the call hands out, and until it has closed the graph the call itself, reads the same bytes.
        let bytes = std::mem::take(&mut graph.bytes);
        match check(&mut graph.raw, &mut verdict, counts.as_mut_ptr(), &mut raw) {
            codes::OK => {
                let mut graph = Graph::of_raw(raw, paths);
                graph.bytes = bytes;
                Checked::found_right(graph, options, &verdict, &counts)
            }
            codes::OUT_OF_MEMORY => Err(OpenError::OutOfMemory),
            codes::STOPPED => Err(OpenError::Stopped { pos: Position(verdict.position) }),
            _ => Err(OpenError::Check(refused::of_files(&paths, &bytes, options, fault_of(&verdict)))),
        }
    }

    /// The graph that a check has found right, with what it counted, as far as there was room.
    fn found_right(
        graph: Graph,
        options: VerifyOptions,
        verdict: &sys::Verdict,
        counts: &[sys::Count],
    ) -> Result<Checked, OpenError> {
        let outcome = match counts.get(..verdict.kinds as usize) {
            Some(counts) => outcome_of(verdict, counts),
            None => graph.outcome(options).map_err(|_| OpenError::OutOfMemory)?,
        };
        Ok(Checked { graph, options, outcome })
    }

    /// The graph.
    #[must_use]
    #[inline]
    pub fn graph(&self) -> &Graph {
        &self.graph
    }

    /// The graph alone.
    #[must_use]
    pub fn into_graph(self) -> Graph {
        self.graph
    }

    /// What the check was asked for.
    #[must_use]
    pub fn options(&self) -> VerifyOptions {
        self.options
    }

    /// The graph's statistics.
    #[must_use]
    pub fn outcome(&self) -> &Outcome {
        &self.outcome
    }

    /// Looks for a shortest walk along parents from one commit to another, both included.
    ///
    /// # Errors
    ///
    /// `NoSuchPosition` where a position is none of the graph's; else `OutOfMemory`.
    pub fn ancestor_walk(&self, from: Position, to: Position) -> Result<Reached, QueryError> {
        self.walk_by(from, to, |out, len| {
            // SAFETY: `raw` is open, and there is room for `len` numbers.
            unsafe { sys::cg_ancestor_walk(self.graph.raw, from.0, to.0, out, len) }
        })
    }

    /// What [`Checked::ancestor_walk`] answers, unless the limit stops the search, which is `Stopped` then.
    ///
    /// # Errors
    ///
    /// Those of [`Checked::ancestor_walk`], and `Stopped` where the limit stops the search.
    pub fn ancestor_walk_within(&self, from: Position, to: Position, limit: Limit<'_>) -> Result<Reached, QueryError> {
        self.walk_by(from, to, |out, len| {
            // SAFETY: as in `ancestor_walk`; here and below, the limit borrows its flag, which is not freed.
            unsafe { sys::cg_ancestor_walk_within(self.graph.raw, from.0, to.0, limit.raw(), out, len) }
        })
    }

    /// The walk from one commit to another that a call writes into a room.
    fn walk_by(
        &self,
        from: Position,
        to: Position,
        search: impl Fn(*mut u32, usize) -> sys::Reached,
    ) -> Result<Reached, QueryError> {
        let mut visits = 0;
        let walk = positions_of(self.longest_walk(from, to), |out| {
            // A position is one number.
            let reached = search(out.as_mut_ptr().cast(), out.len());
            refusal_of(reached.code)?;
            visits = reached.visits;
            Ok::<_, QueryError>(reached.length)
        })?;
        Ok(Reached { walk: (!walk.is_empty()).then_some(walk), visits })
    }

    /// Room for a walk from one commit to another, which has no more commits where their generation numbers are below the
    /// greatest, since these fall along walks. Where there is more, the walk is sought twice.
    fn longest_walk(&self, from: Position, to: Position) -> usize {
        // SAFETY: `raw` is open.
        let number = |pos: Position| unsafe { sys::cg_generation_at(self.graph.raw, pos.0) };
        (number(from).saturating_sub(number(to)) as usize + 1).clamp(64, 64.max(self.graph.num_commits() as usize))
    }

    /// Whether a commit is an ancestor of another, which then leads to it along parents. A commit is its own ancestor. The order
    /// is that of `git merge-base --is-ancestor`.
    ///
    /// # Errors
    ///
    /// `NoSuchPosition` where a position is none of the graph's; else `OutOfMemory`.
    #[inline]
    pub fn is_ancestor(&self, ancestor: Position, descendant: Position) -> Result<bool, QueryError> {
        // SAFETY: `raw` is open.
        let leads = unsafe { sys::cg_is_ancestor(self.graph.raw, ancestor.0, descendant.0) };
        refusal_of(leads.code)?;
        Ok(leads.found)
    }

    /// What [`Checked::is_ancestor`] answers, unless the limit stops the search, which is `Stopped` then.
    ///
    /// # Errors
    ///
    /// Those of [`Checked::is_ancestor`], and `Stopped` where the limit stops the search.
    pub fn is_ancestor_within(
        &self,
        ancestor: Position,
        descendant: Position,
        limit: Limit<'_>,
    ) -> Result<bool, QueryError> {
        // SAFETY: `raw` is open.
        let leads = unsafe { sys::cg_is_ancestor_within(self.graph.raw, ancestor.0, descendant.0, limit.raw()) };
        refusal_of(leads.code)?;
        Ok(leads.found)
    }

    /// Whether the first commit of each pair is an ancestor of the second, as [`Checked::is_ancestor`] answers for one pair. The
    /// memory of the search is filled once for all pairs.
    ///
    /// # Errors
    ///
    /// The index of the first pair of which a position is none, or on which memory ran out.
    pub fn are_ancestors(&self, pairs: &[(Position, Position)]) -> Result<Vec<bool>, PairError> {
        let no_memory = |_| PairError { index: 0, error: QueryError::OutOfMemory };
        let pair = |&(ancestor, descendant): &(Position, Position)| sys::Pair { ancestor: ancestor.0, descendant: descendant.0 };
        let asked = collected(pairs.iter().map(pair)).map_err(no_memory)?;
        let mut out = room_for(0, asked.len()).map_err(no_memory)?;
        // SAFETY: `raw` is open, and each pointer and length are those of a slice.
        let told =
            unsafe { sys::cg_are_ancestors(self.graph.raw, asked.as_ptr(), asked.len(), out.as_mut_ptr(), out.len()) };
        refusal_of(told.code).map_err(|error| PairError { index: told.answered as usize, error })?;
        collected(out.into_iter().map(|answer| answer == 1)).map_err(no_memory)
    }

    /// The merge bases of a commit and some others, which `git merge-base --all FIRST OTHERS..` names, the least position
    /// first; and how far the commits have come apart. The search goes by corrected dates, if each layer has dates and all are
    /// right, and else by generation numbers. The first call for merge bases of a graph also checks its dates, and keeps 8 bytes
    /// for each commit.
    ///
    /// # Errors
    ///
    /// `NoSuchPosition` where a position is none of the graph's; else `OutOfMemory`.
    pub fn compare(&self, first: Position, others: &[Position]) -> Result<Comparison, QueryError> {
        let (places, count) = (others.as_ptr().cast(), others.len());
        compare_by(|out, len| {
            // SAFETY: `raw` is open, there is room for `len` numbers, and a position is one number.
            unsafe { sys::cg_merge_bases(self.graph.raw, first.0, places, count, out, len) }
        })
    }

    /// What [`Checked::compare`] answers, unless the limit stops the search, which is `Stopped` then. It goes by generation numbers,
    /// whatever the dates.
    ///
    /// # Errors
    ///
    /// Those of [`Checked::compare`], and `Stopped` where the limit stops the search.
    pub fn compare_within(
        &self,
        first: Position,
        others: &[Position],
        limit: Limit<'_>,
    ) -> Result<Comparison, QueryError> {
        let (places, count) = (others.as_ptr().cast(), others.len());
        compare_by(|out, len| {
            // SAFETY: as in `compare`.
            unsafe { sys::cg_merge_bases_within(self.graph.raw, first.0, places, count, limit.raw(), out, len) }
        })
    }
}

/// The comparison that a call makes, which writes the merge bases into a room.
fn compare_by(search: impl Fn(*mut u32, usize) -> sys::Bases) -> Result<Comparison, QueryError> {
    let (mut ahead, mut behind) = (0, 0);
    let bases = positions_of(64, |out| {
        // A position is one number.
        let bases = search(out.as_mut_ptr().cast(), out.len());
        refusal_of(bases.code)?;
        (ahead, behind) = (bases.ahead, bases.behind);
        Ok::<_, QueryError>(bases.length)
    })?;
    Ok(Comparison { bases, ahead, behind })
}

/// Checks a graph that is open, without reading its files again.
impl TryFrom<Graph> for Checked {
    type Error = OpenError;

    fn try_from(graph: Graph) -> Result<Checked, OpenError> {
        Checked::of_graph(graph, VerifyOptions::default())
    }
}

impl AsRef<Graph> for Checked {
    fn as_ref(&self) -> &Graph {
        &self.graph
    }
}

/// What a search for a walk found.
#[derive(Clone, Debug, PartialEq, Eq)]
#[non_exhaustive]
pub struct Reached {
    /// The positions of the walk, or `None` where there is none.
    pub walk: Option<Vec<Position>>,
    /// How many commits were visited.
    pub visits: u32,
}

/// What a commit and some others have in common, and how far they have come apart.
#[derive(Clone, Debug, PartialEq, Eq)]
#[non_exhaustive]
pub struct Comparison {
    /// The merge bases, the least position first.
    pub bases: Vec<Position>,
    /// How many commits the first leads to, and none of the others does.
    pub ahead: u32,
    /// How many commits some of the others leads to, and the first does not.
    pub behind: u32,
}

/// The error that the code of a query stands for.
fn refusal_of(code: u32) -> Result<(), QueryError> {
    match code {
        codes::OK => Ok(()),
        codes::NO_SUCH_POSITION => Err(QueryError::NoSuchPosition),
        codes::STOPPED => Err(QueryError::Stopped),
        _ => Err(QueryError::OutOfMemory),
    }
}
