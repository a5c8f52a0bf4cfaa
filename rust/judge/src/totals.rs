//! Document 01's ceilings, and the machine's totals of marks and key bytes.

use crate::forms::key_length;
use bytes::Bytes;
use slatedb_oracle::transaction_manager::{KeyRange, State};

pub use differential::limited::KEY_LIMIT;

pub const ACTIVE_LIMIT: usize = 32;
pub const ENTRY_LIMIT: usize = 128;
pub const MARK_LIMIT: usize = 1_024;
pub const BYTE_LIMIT: usize = 32_768;

/// Marks and key bytes.
pub type Totals = (usize, usize);

pub fn of_keys(keys: &[Bytes]) -> Totals {
    (keys.len(), keys.iter().map(Bytes::len).sum())
}

pub fn of_range((start, end): &KeyRange) -> Totals {
    (1, key_length(start) + key_length(end))
}

pub fn totals(state: &State) -> Totals {
    let entries = state.entries.iter().map(|entry| of_keys(&entry.keys));
    let sets = state.active.iter().flat_map(|txn| [of_keys(&txn.writes), of_keys(&txn.reads)]);
    let ranges = state.active.iter().flat_map(|txn| txn.ranges.iter().map(of_range));
    entries.chain(sets).chain(ranges).fold((0, 0), joined)
}

pub fn joined(a: Totals, b: Totals) -> Totals {
    (a.0 + b.0, a.1 + b.1)
}

pub fn passed((marks, bytes): Totals) -> bool {
    marks > MARK_LIMIT || bytes > BYTE_LIMIT
}
