//! The corrected commit dates and the changed-path filters of a graph.

use crate::room::{collected, room_for};
use crate::{codes, sys, DatesError, Graph, Position, ProbeError};

/// What the filter of a commit says of a path.
#[derive(Clone, Copy, Debug, PartialEq, Eq)]
pub enum Probe {
    /// The path is none of those that the filter was made for.
    Absent,
    /// The path may be one of them.
    Possible,
    /// The commit has no filter.
    NotComputed,
}

impl Graph {
    /// The corrected commit dates of all commits, in order, in seconds since 1970-01-01 00:00:00 UTC; or `None` where a layer
    /// has none, so that Git reads none of the graph. The dates that are answered are right.
    ///
    /// # Errors
    ///
    /// The first that holds of [`DatesError`]. `OutOfMemory` may come before the others.
    pub fn corrected_dates(&self) -> Result<Option<Vec<u64>>, DatesError> {
        let mut dates = room_for(0, self.num_commits() as usize)?;
        // SAFETY: `raw` is open, and the pointer and the length are those of a vector.
        let told = unsafe { sys::cg_corrected_dates(self.raw, dates.as_mut_ptr(), dates.len()) };
        match told.code {
            codes::OK => Ok(Some(dates)),
            codes::NO_DATES => Ok(None),
            _ => Err(DatesError::of(&told)),
        }
    }

    /// What the filters of the commits at these positions say of a path, whose parts have `/` between them. Git makes a filter
    /// for the paths that a commit changes against its first parent, and the folders that lead to them. Each call reads the
    /// sizes of all filters.
    ///
    /// # Errors
    ///
    /// The first that holds of [`ProbeError`]. `OutOfMemory` may come before the others.
    pub fn probe_path(&self, path: &[u8], positions: &[Position]) -> Result<Vec<Probe>, ProbeError> {
        let mut out = room_for(0, positions.len())?;
        let (places, count) = (positions.as_ptr().cast(), positions.len());
        // SAFETY: `raw` is open, each pointer and length are those of a slice, and a position is one number.
        let told = unsafe {
            sys::cg_probe_path(self.raw, path.as_ptr(), path.len(), places, count, out.as_mut_ptr(), out.len())
        };
        match told.code {
            codes::OK => Ok(collected(out.into_iter().map(Probe::of))?),
            _ => Err(ProbeError::of(&told)),
        }
    }
}

impl Probe {
    fn of(answer: u8) -> Probe {
        match answer {
            0 => Probe::Absent,
            1 => Probe::Possible,
            _ => Probe::NotComputed,
        }
    }
}
