//! The check of a graph.

use crate::error::fault_of;
use crate::room::room_for;
use crate::{codes, sys, Commit, Fault, Graph, Position, VerifyError};
use std::collections::{BTreeMap, TryReserveError};

/// For so many different numbers of parents there is room at first.
pub(crate) const ROOM: usize = 64;

/// What a check looks for besides what every right graph keeps.
#[derive(Clone, Copy, Debug, Default, PartialEq, Eq)]
pub struct VerifyOptions {
    /// That no id stands in two layers.
    pub distinct_ids: bool,
}

/// The statistics of a graph.
#[derive(Clone, Debug, PartialEq, Eq)]
#[non_exhaustive]
pub struct Outcome {
    /// The number of edges of the longest walk along parents, or `None` where some generation number is the greatest.
    pub longest_path_length: Option<u32>,
    /// The number of commits.
    pub num_commits: u32,
    /// For each number of parents that some commit has, how many have it.
    pub parent_counts: BTreeMap<u32, u32>,
}

impl Graph {
    /// Checks the graph, and calls the processor on its commits, in their order.
    ///
    /// # Errors
    ///
    /// The first fault, or before it the first error of the processor. It is called on the commits before the fault, up to the
    /// first that it refuses. Where memory ran out it is not called.
    pub fn verify_integrity<E>(
        &self,
        processor: impl FnMut(&Commit<'_>) -> Result<(), E>,
    ) -> Result<Outcome, VerifyError<E>> {
        self.verify_integrity_with(VerifyOptions::default(), processor)
    }

    /// Checks the graph as [`Graph::verify_integrity`] does, and for what the options ask besides.
    ///
    /// # Errors
    ///
    /// Those of [`Graph::verify_integrity`].
    pub fn verify_integrity_with<E>(
        &self,
        options: VerifyOptions,
        mut processor: impl FnMut(&Commit<'_>) -> Result<(), E>,
    ) -> Result<Outcome, VerifyError<E>> {
        let (verdict, counts) = self.verdict(options).map_err(|_| VerifyError::OutOfMemory)?;
        for pos in (0..verdict.called).map(Position) {
            processor(&self.commit_at(pos)).map_err(|error| VerifyError::Processor { pos, error })?;
        }
        match verdict.code {
            codes::OK => Ok(outcome_of(&verdict, &counts)),
            codes::OUT_OF_MEMORY => Err(VerifyError::OutOfMemory),
            _ => Err(VerifyError::Fault(fault_of(&verdict))),
        }
    }

    /// The statistics of a graph that is right.
    pub(crate) fn outcome(&self, options: VerifyOptions) -> Result<Outcome, VerifyError<std::convert::Infallible>> {
        self.verify_integrity_with(options, |_| Ok(()))
    }

    /// Whether this is the first fault that a check finds.
    pub(crate) fn has_fault(&self, options: VerifyOptions, fault: Fault) -> bool {
        match self.verdict(options) {
            Ok((verdict, _)) => !matches!(verdict.code, codes::OK | codes::OUT_OF_MEMORY) && fault_of(&verdict) == fault,
            Err(_) => false,
        }
    }

    /// The verdict, and its counts; or that there is no memory for them.
    fn verdict(&self, options: VerifyOptions) -> Result<(sys::Verdict, Vec<sys::Count>), TryReserveError> {
        let mut verdict = sys::Verdict::default();
        let mut counts = room_for(sys::Count::default(), ROOM)?;
        loop {
            let (out, room) = (counts.as_mut_ptr(), counts.len());
            // SAFETY: `raw` is open, and each pointer is that of a value or of a slice with the length beside it.
            unsafe { sys::cg_verify(self.raw, options.distinct_ids, &mut verdict, out, room) };
            if verdict.kinds as usize <= room {
                counts.truncate(verdict.kinds as usize);
                return Ok((verdict, counts));
            }
            counts = room_for(sys::Count::default(), verdict.kinds as usize)?;
        }
    }
}

/// The statistics that a verdict on a right graph and its counts tell of.
pub(crate) fn outcome_of(verdict: &sys::Verdict, counts: &[sys::Count]) -> Outcome {
    Outcome {
        longest_path_length: (verdict.has_longest == 1).then_some(verdict.longest),
        num_commits: verdict.num_commits,
        parent_counts: counts.iter().map(|count| (count.parents, count.commits)).collect(),
    }
}
