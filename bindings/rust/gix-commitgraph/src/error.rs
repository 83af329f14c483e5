//! Why a call has no answer.

use commitgraph::{CheckError, OpenError};
use std::convert::Infallible;
use std::fmt;

/// Why a call has no answer: what the cause says. [`Error::get_ref`] is the cause.
pub struct Error(Box<dyn std::error::Error + Send + Sync>);

impl Error {
    /// The error of a cause, or of a text.
    #[must_use]
    pub fn new(cause: impl Into<Box<dyn std::error::Error + Send + Sync>>) -> Error {
        Error(cause.into())
    }

    /// The cause: one of the errors of `nolavimure-commitgraph`, or what a processor has answered.
    #[must_use]
    pub fn get_ref(&self) -> &(dyn std::error::Error + Send + Sync + 'static) {
        &*self.0
    }

    /// What to do, with the commands to type in the repository of what was opened; empty where that is not known.
    #[must_use]
    pub fn advice(&self) -> String {
        let opening = self.0.downcast_ref().map(OpenError::advice);
        opening.or_else(|| self.0.downcast_ref().map(CheckError::advice)).unwrap_or_default()
    }
}

impl fmt::Debug for Error {
    fn fmt(&self, f: &mut fmt::Formatter<'_>) -> fmt::Result {
        self.0.fmt(f)
    }
}

impl fmt::Display for Error {
    fn fmt(&self, f: &mut fmt::Formatter<'_>) -> fmt::Result {
        self.0.fmt(f)
    }
}

impl std::error::Error for Error {
    fn source(&self) -> Option<&(dyn std::error::Error + 'static)> {
        self.0.source()
    }
}

impl From<Box<dyn std::error::Error + Send + Sync>> for Error {
    fn from(cause: Box<dyn std::error::Error + Send + Sync>) -> Error {
        Error(cause)
    }
}

macro_rules! from_cause {
    ($($cause:ty),*) => { $(
        impl From<$cause> for Error {
            fn from(cause: $cause) -> Error {
                Error(cause.into())
            }
        }
    )* };
}

from_cause!(&str, String, fmt::Error, std::io::Error);
from_cause!(OpenError, commitgraph::ParentError, commitgraph::VerifyError<Infallible>);
