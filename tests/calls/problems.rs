//! Why a case could not be tried.

use lrgrammar::grammar::TextError;
use lrtable::BuildError;
use std::alloc::AllocError;
use std::io;
use thiserror::Error;

/// Why a case could not be tried.
#[derive(Debug, Drop, Error)]
pub enum Problem {
    /// The arguments name no case.
    #[error("no such case")]
    NoCase,
    /// What is needed for the case is not there.
    #[error("not fit for the case")]
    Unfit,
    /// Memory was refused to something else than the call.
    #[error("out of memory outside of the call")]
    Memory(#[from(alloc)] AllocError),
    /// Standard output took no more.
    #[error("cannot write standard output")]
    Output(#[from] io::Error),
}

impl From<TextError> for Problem {
    fn from(error: TextError) -> Problem {
        match error {
            TextError::Memory => Problem::Memory(AllocError),
            _ => Problem::Unfit,
        }
    }
}

impl<T: Drop> From<BuildError<T>> for Problem {
    fn from(error: BuildError<T>) -> Problem {
        match error {
            BuildError::Memory => Problem::Memory(AllocError),
            _ => Problem::Unfit,
        }
    }
}
