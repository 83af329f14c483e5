//! The check of a graph, and its statistics.

use crate::{file, Error, Graph};
use commitgraph::{OpenError, VerifyError};
use std::collections::BTreeMap;

/// The statistics of a graph that was found right.
#[derive(Clone, Debug, Eq, PartialEq)]
pub struct Outcome {
    /// The number of edges of the longest walk along parents, or `None` where some generation number is
    /// [`GENERATION_NUMBER_MAX`](crate::GENERATION_NUMBER_MAX).
    pub longest_path_length: Option<u32>,
    /// The number of commits.
    pub num_commits: u32,
    /// For each number of parents that some commit has, how many have it.
    pub parent_counts: BTreeMap<u32, u32>,
}

impl Graph {
    /// Checks the graph, and calls the processor on its commits, in the order of their positions, up to the first fault.
    ///
    /// # Errors
    ///
    /// The first fault, or before it the first error of the processor; or that memory ran out.
    pub fn verify_integrity<E>(&self, mut processor: impl FnMut(&file::Commit<'_>) -> Result<(), E>) -> Result<Outcome, Error>
    where
        E: std::error::Error + Send + Sync + 'static,
    {
        let checked = self.layers.graph.verify_integrity(|commit| processor(&self.commit_at(commit.position())));
        match checked {
            Ok(found) => Ok(Outcome {
                longest_path_length: found.longest_path_length,
                num_commits: found.num_commits,
                parent_counts: found.parent_counts,
            }),
            Err(VerifyError::Processor { error, .. }) => Err(Error::new(error)),
            Err(VerifyError::Fault(fault)) => Err(Error::new(self.layers.graph.check_error(fault))),
            Err(_) => Err(OpenError::OutOfMemory.into()),
        }
    }
}
