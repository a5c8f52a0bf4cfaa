//! slatedb's manager, unchanged, asked in the forms that its own callers have ready.

use super::scenes::{Keys, Range};
use super::{Account, Id, Manager, MEASURED};
use slatedb_oracle::transaction_manager::{Active, ManagerProbe};

pub struct Original {
    manager: ManagerProbe,
    kept: Kept,
}

/// What the calls that are timed may change.
struct Kept {
    measured: Option<Active>,
    entries: usize,
}

impl Original {
    pub fn fresh() -> Original {
        Original { manager: ManagerProbe::new(0), kept: Kept { measured: None, entries: 0 } }
    }
}

impl Manager for Original {
    fn new_transaction(&mut self, id: &Id) -> u64 {
        self.manager.new_transaction(*id)
    }

    fn track_write_keys(&mut self, id: &Id, keys: &Keys) {
        self.manager.track_write_set(*id, &keys.set);
    }

    fn track_read_keys(&mut self, id: &Id, keys: &Keys) {
        self.manager.track_read_keys(*id, &keys.counted);
    }

    fn track_read_range(&mut self, id: &Id, range: &Range) {
        self.manager.track_read_range(*id, range.counted.clone());
    }

    fn check_has_conflict(&mut self, id: &Id) -> bool {
        self.manager.check_has_conflict(*id)
    }

    fn track_recent_committed_txn(&mut self, id: &Id, seq: u64) {
        self.manager.track_recent_committed_txn(*id, seq);
    }

    fn track_recent_committed_write_batch(&mut self, keys: &Keys, seq: u64) {
        self.manager.track_recent_committed_write_batch(&keys.counted, seq);
    }

    fn min_active_seq(&mut self) -> u64 {
        self.manager.min_active_seq().expect("someone is active")
    }

    fn keep(&mut self) {
        let state = self.manager.state();
        let measured = state.active.into_iter().find(|txn| txn.id == MEASURED);
        self.kept = Kept { measured, entries: state.entries.len() };
    }

    fn put_back(&mut self) {
        match &self.kept.measured {
            Some(txn) => self.manager.put_active(txn),
            None => self.manager.drop_txn(MEASURED),
        }
        self.manager.truncate_entries(self.kept.entries);
    }

    fn account(&mut self) -> Account {
        let (marks, entries, last) = self.manager.counts(MEASURED);
        Account { marks: marks as u64, entries: entries as u64, last }
    }
}
