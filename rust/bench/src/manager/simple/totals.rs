//! Marks and key bytes, counted, and document 01's ceilings.

use super::sets::{Range, Set};
use std::ops::Bound;
use stranvek::numbers::FULL;

pub const ACTIVE_LIMIT: usize = 32;
pub const ENTRY_LIMIT: usize = 128;
const MARK_LIMIT: usize = 1_024;
const BYTE_LIMIT: usize = 32_768;

#[derive(Clone, Copy, Default)]
pub struct Totals {
    marks: usize,
    bytes: usize,
}

impl Totals {
    pub fn of_keys(keys: &[&[u8]]) -> Totals {
        Totals { marks: keys.len(), bytes: keys.iter().map(|key| key.len()).sum() }
    }

    pub fn of_set(set: &Set) -> Totals {
        Totals { marks: set.len(), bytes: set.iter().map(|key| key.len()).sum() }
    }

    pub fn of_range(range: &Range) -> Totals {
        let length = |bound: &Bound<Box<[u8]>>| match bound {
            Bound::Included(key) | Bound::Excluded(key) => key.len(),
            Bound::Unbounded => 0,
        };
        Totals { marks: 1, bytes: length(&range.start) + length(&range.end) }
    }

    /// Status 6 where a total would pass its ceiling, and then nothing is added.
    pub fn add(&mut self, more: Totals) -> Result<(), u8> {
        let sum = Totals { marks: self.marks + more.marks, bytes: self.bytes + more.bytes };
        if sum.marks > MARK_LIMIT || sum.bytes > BYTE_LIMIT {
            return Err(FULL);
        }
        *self = sum;
        Ok(())
    }

    pub fn take(&mut self, less: Totals) {
        self.marks -= less.marks;
        self.bytes -= less.bytes;
    }
}
