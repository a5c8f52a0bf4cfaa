//! The simple manager as a side of the bench.

use super::{Active, Simple, Totals};
use crate::manager::port::{done, told};
use crate::manager::scenes::{Keys, Range};
use crate::manager::{Account, Id, Manager, MEASURED, NOBODY};

pub struct Sorted {
    manager: Simple,
    kept: Kept,
    marks: u64,
}

/// What the calls that are timed may change.
struct Kept {
    measured: Option<Active>,
    entries: usize,
    totals: Totals,
}

impl Sorted {
    pub fn fresh() -> Sorted {
        let kept = Kept { measured: None, entries: 0, totals: Totals::default() };
        Sorted { manager: Simple::new(0), kept, marks: 0 }
    }
}

impl Manager for Sorted {
    fn new_transaction(&mut self, id: &Id) -> u64 {
        done(self.manager.new_transaction(id))
    }

    fn track_write_keys(&mut self, id: &Id, keys: &Keys) {
        self.marks += done(self.manager.track_write_keys(id, &keys.fields));
    }

    fn track_read_keys(&mut self, id: &Id, keys: &Keys) {
        self.marks += done(self.manager.track_read_keys(id, &keys.fields));
    }

    fn track_read_range(&mut self, id: &Id, range: &Range) {
        self.marks += done(self.manager.track_read_range(id, &range.fields));
    }

    fn check_has_conflict(&mut self, id: &Id) -> bool {
        done(self.manager.check_has_conflict(id)) == 1
    }

    fn track_recent_committed_txn(&mut self, id: &Id, seq: u64) {
        done(self.manager.track_recent_committed_txn(id, seq));
        self.marks = 0;
    }

    fn track_recent_committed_write_batch(&mut self, keys: &Keys, seq: u64) {
        done(self.manager.track_recent_committed_write_batch(&keys.fields, seq));
    }

    fn min_active_seq(&mut self) -> u64 {
        done(self.manager.min_active_seq())
    }

    fn keep(&mut self) {
        let manager = &self.manager;
        let measured = manager.place(&MEASURED).ok().map(|at| manager.active[at].clone());
        self.kept = Kept { measured, entries: manager.entries.len(), totals: manager.totals };
        self.marks = 0;
    }

    fn put_back(&mut self) {
        let manager = &mut self.manager;
        if let Ok(at) = manager.place(&MEASURED) {
            manager.active.remove(at);
        }
        if let (Some(txn), Err(at)) = (&self.kept.measured, manager.place(&MEASURED)) {
            manager.active.insert(at, txn.clone());
        }
        manager.entries.truncate(self.kept.entries);
        manager.totals = self.kept.totals;
        self.marks = 0;
    }

    fn account(&mut self) -> Account {
        Account {
            marks: self.marks,
            entries: told(self.manager.drop_txn(&NOBODY)),
            last: told(self.manager.track_recent_committed_txn(&NOBODY, 0)),
        }
    }
}
