//! What stops a search or a check before its end.

use crate::{codes, sys, QueryError};

/// A flag by which one thread stops what another one asks. It is never lowered.
#[derive(Debug)]
pub struct Flag {
    raw: sys::Flag,
}

// SAFETY: any number of calls may look at a flag at a time, and raise it (`commitgraph.h`). `drop` has it to itself.
unsafe impl Send for Flag {}
unsafe impl Sync for Flag {}

impl Flag {
    /// A flag that is not raised.
    ///
    /// # Errors
    ///
    /// `OutOfMemory`.
    pub fn new() -> Result<Flag, QueryError> {
        let mut raw = sys::NO_FLAG;
        // SAFETY: `raw` is CG_NO_FLAG.
        match unsafe { sys::cg_flag_new(&mut raw) } {
            codes::OK => Ok(Flag { raw }),
            _ => Err(QueryError::OutOfMemory),
        }
    }

    /// Raises the flag, for good: calls that look at it stop, and so do later ones.
    pub fn raise(&self) {
        // SAFETY: only `drop` frees the flag.
        unsafe { sys::cg_flag_raise(self.raw) };
    }
}

impl Drop for Flag {
    fn drop(&mut self) {
        // SAFETY: a `Limit` that has the flag borrows it, so no call looks at it from here on.
        unsafe { sys::cg_flag_free(&mut self.raw) };
    }
}

/// When a search or a check stops before its end. The default is that it does not.
#[derive(Clone, Copy, Debug, Default)]
pub struct Limit<'f> {
    /// How many commits it may visit.
    pub visits: Option<u64>,
    /// A flag that stops it once it is raised.
    pub flag: Option<&'f Flag>,
}

impl Limit<'_> {
    pub(crate) fn raw(self) -> sys::Limit {
        sys::Limit { visits: self.visits.unwrap_or(u64::MAX), flag: self.flag.map_or(sys::NO_FLAG, |flag| flag.raw) }
    }
}
