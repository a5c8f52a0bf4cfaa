//! The library's answers read: values, refusals, and what ended.

use crate::boundary::Answer;
use crate::error::Error;
use crate::numbers::{ABSENT, DONE};

/// How a commit ended. The number has advanced whether or not the id was active; writes are recorded only if it was.
#[must_use = "the commit of an id that was not active has recorded no writes"]
#[derive(Clone, Copy, Debug, PartialEq, Eq, Hash)]
pub struct Committed {
    /// Whether the id was active (status 0) or not (status 1).
    pub was_active: bool,
    /// The last committed number after the call.
    pub last_committed_seq: u64,
}

/// How a drop ended. Entries that nobody can conflict with any more were removed whether or not the id was active.
#[derive(Clone, Copy, Debug, PartialEq, Eq, Hash)]
pub struct Dropped {
    /// Whether the id was active (status 0) or not (status 1).
    pub was_active: bool,
    /// How many entries of recent commits are kept.
    pub entries_kept: u64,
}

/// The value of a call that was done.
pub(crate) fn done(answer: Answer) -> Result<u64, Error> {
    match answer.status {
        DONE => Ok(answer.value),
        status => Err(refused(status)),
    }
}

/// The value of a call for which not active is no refusal, and whether it was active.
pub(crate) fn ended(answer: Answer) -> Result<(bool, u64), Error> {
    match answer.status {
        DONE => Ok((true, answer.value)),
        ABSENT => Ok((false, answer.value)),
        status => Err(refused(status)),
    }
}

fn refused(status: u8) -> Error {
    Error::from_status(status)
        .unwrap_or_else(|| unreachable!("the library answered status {}", status))
}
