//! The manager as one might write it in Rust without slatedb, for comparison. Its form is fixed: sets as sorted Vec of boxed keys
//! (`Vec<Box<[u8]>>`), check by merge per entry above the start, ranges by partition point, totals as counters. It takes the
//! port's arguments and answers as the port does, but for status 7: its state cannot be damaged.

mod fields;
mod sets;
mod side;
mod totals;

pub use side::Sorted;

use crate::manager::Id;
use sets::{Range, Set};
use stranvek::boundary::Answer;
use stranvek::numbers::{ABSENT, AGAIN, DONE, FULL};
use totals::{Totals, ACTIVE_LIMIT, ENTRY_LIMIT};

#[derive(Clone)]
struct Active {
    id: Id,
    start: u64,
    writes: Set,
    reads: Set,
    ranges: Vec<Range>,
}

struct Entry {
    seq: u64,
    keys: Set,
}

/// The active transactions ascend by id.
pub struct Simple {
    last: u64,
    active: Vec<Active>,
    entries: Vec<Entry>,
    totals: Totals,
}

/// A refusal is its status.
fn answered(call: impl FnOnce() -> Result<Answer, u8>) -> Answer {
    call().unwrap_or_else(|status| Answer { status, value: 0 })
}

fn done(value: u64) -> Answer {
    Answer { status: DONE, value }
}

/// What commit and drop answer, for an id that is not active too.
fn ended(known: bool, value: u64) -> Answer {
    Answer { status: if known { DONE } else { ABSENT }, value }
}

impl Simple {
    pub fn new(last: u64) -> Simple {
        Simple { last, active: Vec::new(), entries: Vec::new(), totals: Totals::default() }
    }

    pub fn new_transaction(&mut self, id: &[u8]) -> Answer {
        answered(|| {
            let id = fields::id(id)?;
            let at = self.place(&id).map_or_else(Ok, |_| Err(AGAIN))?;
            if self.active.len() == ACTIVE_LIMIT {
                return Err(FULL);
            }
            let (start, writes, reads, ranges) = (self.last, Set::new(), Set::new(), Vec::new());
            self.active.insert(at, Active { id, start, writes, reads, ranges });
            Ok(done(start))
        })
    }

    pub fn drop_txn(&mut self, id: &[u8]) -> Answer {
        answered(|| {
            let known = self.place(&fields::id(id)?);
            if let Ok(at) = known {
                let txn = self.active.remove(at);
                self.totals.take(Totals::of_set(&txn.writes));
                self.forget_reads(&txn);
            }
            self.prune();
            Ok(ended(known.is_ok(), self.entries.len() as u64))
        })
    }

    pub fn track_write_keys(&mut self, id: &[u8], keys: &[u8]) -> Answer {
        answered(|| self.track(id, keys, |txn| &mut txn.writes).map(done))
    }

    pub fn track_read_keys(&mut self, id: &[u8], keys: &[u8]) -> Answer {
        answered(|| self.track(id, keys, |txn| &mut txn.reads).map(done))
    }

    pub fn track_read_range(&mut self, id: &[u8], range: &[u8]) -> Answer {
        answered(|| {
            let id = fields::id(id)?;
            let range = fields::range(range)?;
            let at = self.place(&id).map_err(|_| ABSENT)?;
            self.totals.add(Totals::of_range(&range))?;
            self.active[at].ranges.push(range);
            Ok(done(1))
        })
    }

    pub fn check_has_conflict(&self, id: &[u8]) -> Answer {
        answered(|| {
            let id = fields::id(id)?;
            let at = self.place(&id).map_err(|_| ABSENT)?;
            let txn = &self.active[at];
            let mut above = self.entries.iter().filter(|entry| entry.seq > txn.start);
            Ok(done(above.any(|entry| txn.conflicts(&entry.keys)).into()))
        })
    }

    pub fn track_recent_committed_txn(&mut self, id: &[u8], seq: u64) -> Answer {
        answered(|| {
            let known = self.place(&fields::id(id)?);
            if let Ok(at) = known {
                if self.entries.len() == ENTRY_LIMIT && self.active.len() > 1 {
                    return Err(FULL);
                }
                let txn = self.active.remove(at);
                self.forget_reads(&txn);
                self.entries.push(Entry { seq, keys: txn.writes });
                self.empty_if_alone();
            }
            self.last = self.last.max(seq);
            Ok(ended(known.is_ok(), self.last))
        })
    }

    pub fn track_recent_committed_write_batch(&mut self, keys: &[u8], seq: u64) -> Answer {
        answered(|| {
            let keys = sets::lacking(&[], fields::key_list(keys)?);
            if !self.active.is_empty() {
                if self.entries.len() == ENTRY_LIMIT {
                    return Err(FULL);
                }
                self.totals.add(Totals::of_keys(&keys))?;
                let keys = keys.into_iter().map(Box::from).collect();
                self.entries.push(Entry { seq, keys });
            }
            self.last = self.last.max(seq);
            Ok(done(self.last))
        })
    }

    pub fn min_active_seq(&self) -> Answer {
        answered(|| self.least_start().map(done).ok_or(ABSENT))
    }

    /// Where the id's transaction stands, or where it would.
    fn place(&self, id: &Id) -> Result<usize, usize> {
        self.active.binary_search_by(|txn| txn.id.cmp(id))
    }

    fn least_start(&self) -> Option<u64> {
        self.active.iter().map(|txn| txn.start).min()
    }

    fn track(
        &mut self,
        id: &[u8],
        keys: &[u8],
        set: fn(&mut Active) -> &mut Set,
    ) -> Result<u64, u8> {
        let id = fields::id(id)?;
        let keys = fields::key_list(keys)?;
        let at = self.place(&id).map_err(|_| ABSENT)?;
        let set = set(&mut self.active[at]);
        let keys = sets::lacking(set, keys);
        self.totals.add(Totals::of_keys(&keys))?;
        sets::add(set, &keys);
        Ok(keys.len() as u64)
    }

    fn forget_reads(&mut self, txn: &Active) {
        self.totals.take(Totals::of_set(&txn.reads));
        txn.ranges.iter().for_each(|range| self.totals.take(Totals::of_range(range)));
    }

    fn prune(&mut self) {
        if let Some(least) = self.least_start() {
            let totals = &mut self.totals;
            self.entries.retain(|entry| {
                let kept = entry.seq >= least;
                if !kept {
                    totals.take(Totals::of_set(&entry.keys));
                }
                kept
            });
        }
        self.empty_if_alone();
    }

    fn empty_if_alone(&mut self) {
        if self.active.is_empty() {
            self.entries.clear();
            self.totals = Totals::default();
        }
    }
}

impl Active {
    fn conflicts(&self, written: &Set) -> bool {
        sets::share_a_key(&self.writes, written)
            || sets::share_a_key(&self.reads, written)
            || self.ranges.iter().any(|range| range.holds_one_of(written))
    }
}
