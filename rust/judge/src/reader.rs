//! What the bytes of a room record, read without a line of the library's: the format is that of crates/layout/specs.

use crate::forms::{key_length, leading_bounds};
use crate::totals::{totals, ACTIVE_LIMIT, BYTE_LIMIT, ENTRY_LIMIT, KEY_LIMIT, MARK_LIMIT};
use bytes::Bytes;
use slatedb_oracle::bytes_range::BytesProbe;
use slatedb_oracle::transaction_manager::{Active, Entry, KeyRange, State};

/// The published size, as a number that is not read from the library.
pub const SIZE: usize = 41_172;

const STAMP: u64 = 0x5374_7261_6e76_6b31;

/// What is left to read.
struct Rest<'a>(&'a [u8]);

impl<'a> Rest<'a> {
    fn take(&mut self, length: usize) -> Option<&'a [u8]> {
        let taken = self.0.get(..length)?;
        self.0 = &self.0[length..];
        Some(taken)
    }

    fn eight(&mut self) -> Option<u64> {
        Some(u64::from_be_bytes(self.take(8)?.try_into().ok()?))
    }

    fn two(&mut self) -> Option<usize> {
        Some(usize::from(u16::from_be_bytes(self.take(2)?.try_into().ok()?)))
    }

    /// A key of at most 512 bytes after its length.
    fn key(&mut self) -> Option<Bytes> {
        let length = self.two()?;
        if length > KEY_LIMIT {
            return None;
        }
        self.take(length).map(Bytes::copy_from_slice)
    }

    /// A count, and keys that ascend.
    fn set(&mut self) -> Option<Vec<Bytes>> {
        let count = self.two()?;
        let mut keys: Vec<Bytes> = Vec::new();
        for _ in 0..count {
            let key = self.key()?;
            if keys.last().map_or(false, |before| *before >= key) {
                return None;
            }
            keys.push(key);
        }
        Some(keys)
    }

    /// A range that is not empty by the rule.
    fn range(&mut self) -> Option<KeyRange> {
        let (range, rest) = leading_bounds(self.0)?;
        self.0 = rest;
        let long = key_length(&range.0) > KEY_LIMIT || key_length(&range.1) > KEY_LIMIT;
        if long || BytesProbe::try_new(range.0.clone(), range.1.clone()).is_none() {
            return None;
        }
        Some(range)
    }

    fn entry(&mut self) -> Option<Entry> {
        Some(Entry { seq: self.eight()?, keys: self.set()? })
    }

    fn active(&mut self) -> Option<Active> {
        let id = self.take(16)?.try_into().ok()?;
        let start = self.eight()?;
        let writes = self.set()?;
        let reads = self.set()?;
        let count = self.two()?;
        let ranges = (0..count).map(|_| self.range()).collect::<Option<_>>()?;
        Some(Active { id, start, writes, reads, ranges })
    }
}

/// The state that a room records, and how many bytes its record takes; nothing where the room is status 7.
pub fn record(room: &[u8]) -> Option<(State, usize)> {
    let mut rest = Rest(room.get(..SIZE)?);
    if rest.eight()? != STAMP {
        return None;
    }
    let last = rest.eight()?;
    let entries = rest.two()?;
    let active = rest.two()?;
    let entries = (0..entries).map(|_| rest.entry()).collect::<Option<_>>()?;
    let active = (0..active).map(|_| rest.active()).collect::<Option<_>>()?;
    let state = State { last, entries, active };
    is_machine_state(&state).then(|| (state, SIZE - rest.0.len()))
}

pub fn read(room: &[u8]) -> Option<State> {
    record(room).map(|(state, _)| state)
}

/// Status 7's "machine state", beyond what the record's form decides.
fn is_machine_state(state: &State) -> bool {
    let (marks, bytes) = totals(state);
    state.active.len() <= ACTIVE_LIMIT
        && state.entries.len() <= ENTRY_LIMIT
        && marks <= MARK_LIMIT
        && bytes <= BYTE_LIMIT
        && state.active.windows(2).all(|pair| pair[0].id < pair[1].id)
        && state.active.iter().all(|txn| txn.start <= state.last)
        && state.entries.iter().all(|entry| entry.seq <= state.last)
        && (!state.active.is_empty() || state.entries.is_empty())
}
