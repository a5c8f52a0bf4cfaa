//! The proved archive, through the boundary that a host in Rust calls.

use super::scenes::{Keys, Range};
use super::{Account, Id, Manager, NOBODY};
use stranvek::boundary::{self, Answer};
use stranvek::numbers::{ABSENT, DONE};

pub struct Port {
    room: Vec<u8>,
    kept: Vec<u8>,
    marks: u64,
}

/// The value of a call that must not be refused.
pub fn done(answer: Answer) -> u64 {
    assert_eq!(answer.status, DONE);
    answer.value
}

/// What commit and drop say for an id that is not active.
pub fn told(answer: Answer) -> u64 {
    assert_eq!(answer.status, ABSENT);
    answer.value
}

impl Port {
    pub fn fresh() -> Port {
        let mut room = vec![0; boundary::room_size()];
        done(boundary::new(&mut room, 0));
        Port { kept: room.clone(), room, marks: 0 }
    }
}

impl Manager for Port {
    fn new_transaction(&mut self, id: &Id) -> u64 {
        done(boundary::new_transaction(&mut self.room, id))
    }

    fn track_write_keys(&mut self, id: &Id, keys: &Keys) {
        self.marks += done(boundary::track_write_keys(&mut self.room, id, &keys.fields));
    }

    fn track_read_keys(&mut self, id: &Id, keys: &Keys) {
        self.marks += done(boundary::track_read_keys(&mut self.room, id, &keys.fields));
    }

    fn track_read_range(&mut self, id: &Id, range: &Range) {
        self.marks += done(boundary::track_read_range(&mut self.room, id, &range.fields));
    }

    fn check_has_conflict(&mut self, id: &Id) -> bool {
        done(boundary::check_has_conflict(&self.room, id)) == 1
    }

    fn track_recent_committed_txn(&mut self, id: &Id, seq: u64) {
        done(boundary::track_recent_committed_txn(&mut self.room, id, seq));
        self.marks = 0;
    }

    fn track_recent_committed_write_batch(&mut self, keys: &Keys, seq: u64) {
        done(boundary::track_recent_committed_write_batch(&mut self.room, &keys.fields, seq));
    }

    fn min_active_seq(&mut self) -> u64 {
        done(boundary::min_active_seq(&self.room))
    }

    fn keep(&mut self) {
        self.kept.copy_from_slice(&self.room);
        self.marks = 0;
    }

    fn put_back(&mut self) {
        self.room.copy_from_slice(&self.kept);
        self.marks = 0;
    }

    fn account(&mut self) -> Account {
        Account {
            marks: self.marks,
            entries: told(boundary::drop_txn(&mut self.room, &NOBODY)),
            last: told(boundary::track_recent_committed_txn(&mut self.room, &NOBODY, 0)),
        }
    }
}
