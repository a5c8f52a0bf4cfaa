//! The calls of the manager as values.

use stranvek::boundary::{self, Answer};

pub use differential::fields::{field, list_of};

/// A call on a room, with ids, key lists and bounds as the bytes that are passed.
#[derive(Clone, Debug)]
pub enum Call {
    New(u64),
    NewTransaction(Vec<u8>),
    Drop(Vec<u8>),
    Writes(Vec<u8>, Vec<u8>),
    Reads(Vec<u8>, Vec<u8>),
    Range(Vec<u8>, Vec<u8>),
    Check(Vec<u8>),
    Commit(Vec<u8>, u64),
    Batch(Vec<u8>, u64),
    Minimum,
}

impl Call {
    pub fn id(&self) -> Option<&[u8]> {
        match self {
            Call::NewTransaction(id)
            | Call::Drop(id)
            | Call::Writes(id, _)
            | Call::Reads(id, _)
            | Call::Range(id, _)
            | Call::Check(id)
            | Call::Commit(id, _) => Some(id),
            Call::New(_) | Call::Batch(..) | Call::Minimum => None,
        }
    }

    pub fn key_list(&self) -> Option<&[u8]> {
        match self {
            Call::Writes(_, list) | Call::Reads(_, list) | Call::Batch(list, _) => Some(list),
            _ => None,
        }
    }

    /// Whether a call answered 1 may change the room.
    pub fn acts_when_absent(&self) -> bool {
        matches!(self, Call::Commit(..) | Call::Drop(_))
    }

    pub fn ask(&self, room: &mut [u8]) -> Answer {
        self.ask_by(room, |bytes| bytes)
    }

    /// Asks with the arguments where they are lent from.
    pub fn ask_by<'a>(&'a self, room: &mut [u8], lent: impl Fn(&'a [u8]) -> &'a [u8]) -> Answer {
        match self {
            Call::New(last) => boundary::new(room, *last),
            Call::NewTransaction(id) => boundary::new_transaction(room, lent(id)),
            Call::Drop(id) => boundary::drop_txn(room, lent(id)),
            Call::Writes(id, list) => boundary::track_write_keys(room, lent(id), lent(list)),
            Call::Reads(id, list) => boundary::track_read_keys(room, lent(id), lent(list)),
            Call::Range(id, bounds) => boundary::track_read_range(room, lent(id), lent(bounds)),
            Call::Check(id) => boundary::check_has_conflict(room, lent(id)),
            Call::Commit(id, seq) => boundary::track_recent_committed_txn(room, lent(id), *seq),
            Call::Batch(list, seq) => {
                boundary::track_recent_committed_write_batch(room, lent(list), *seq)
            }
            Call::Minimum => boundary::min_active_seq(room),
        }
    }
}

/// The id whose bytes are all one.
pub fn id_of(byte: u8) -> Vec<u8> {
    vec![byte; 16]
}
