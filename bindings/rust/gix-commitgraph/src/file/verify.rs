//! The check of a file, and its statistics.

use crate::file::Commit;
use crate::{Error, File};
use commitgraph::{Fault, LayerFault, LayerOutcome, OpenError, VerifyError};
use gix_hash::{oid, ObjectId};
use std::collections::HashMap;
use std::convert::Infallible;

/// The statistics of a file that was found right.
#[derive(Clone, Debug, Eq, PartialEq)]
pub struct Outcome {
    /// The greatest generation number, 0 where there is no commit.
    pub max_generation: u32,
    /// The least generation number, 0 where there is no commit.
    pub min_generation: u32,
    /// The greatest number of parents of a commit.
    pub max_parents: u32,
    /// The number of commits.
    pub num_commits: u32,
    /// For each number of parents that some commit has, how many have it.
    pub parent_counts: HashMap<u32, u32>,
}

impl File {
    /// The checksum that the file ends with.
    #[must_use]
    pub fn checksum(&self) -> &oid {
        self.layer().checksum()
    }

    /// Checks the file, without those below it, and calls the processor on its commits, in the order of their positions, up to the
    /// first fault.
    ///
    /// # Errors
    ///
    /// The first fault, or before it the first error of the processor; or that memory ran out.
    pub fn traverse<'a, Processor>(&'a self, mut processor: Processor) -> Result<Outcome, Error>
    where
        Processor: FnMut(&Commit<'a>) -> Result<(), Error>,
    {
        let found = self.check();
        let called = match found {
            Ok(told) => told.num_commits,
            Err(VerifyError::Fault(Fault::Commit { pos, .. })) => pos.0,
            Err(VerifyError::Fault(Fault::Parent { pos, .. })) => pos.0 + 1,
            Err(_) => 0,
        };
        self.iter_commits().take(called as usize).try_for_each(|commit| processor(&commit))?;
        let told = found.map_err(|error| self.refusal(error))?;
        Ok(Outcome {
            max_generation: told.max_generation,
            min_generation: told.min_generation,
            max_parents: told.max_parents,
            num_commits: told.num_commits,
            parent_counts: self.parent_counts()?,
        })
    }

    /// The checksum, where it is the digest of the bytes before it. Then the rest of the file is checked too, which takes some time more.
    ///
    /// # Errors
    ///
    /// It is another one.
    pub fn verify_checksum(&self) -> Result<ObjectId, Error> {
        match self.check() {
            Err(error @ VerifyError::Fault(Fault::Layer { fault: LayerFault::Checksum, .. })) => Err(self.refusal(error)),
            _ => Ok(self.checksum().to_owned()),
        }
    }

    /// The error of a check, which names the file, and of a commit the id.
    fn refusal(&self, error: VerifyError<Infallible>) -> Error {
        match error {
            VerifyError::Fault(fault) => Error::new(self.layers.graph.check_error(fault)),
            error => error.into(),
        }
    }

    fn check(&self) -> Result<LayerOutcome, VerifyError<Infallible>> {
        self.layers.graph.layer(0).expect("a file is a layer").verify()
    }

    /// For each number of parents that some commit has, how many have it, of a file that the check has passed. It takes a step for each
    /// commit and for each word of the extra edge list, however many commits share a list.
    fn parent_counts(&self) -> Result<HashMap<u32, u32>, Error> {
        let lengths = self.layer().list_lengths().map_err(|_| OpenError::OutOfMemory)?;
        let mut counts = HashMap::new();
        for commit in self.iter_commits() {
            *counts.entry(commit.parent_count(&lengths)).or_insert(0) += 1;
        }
        Ok(counts)
    }
}
