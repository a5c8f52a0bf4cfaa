//! The record of a state, written without a line of the library's; states that are no machine states have one too.

use crate::call::field;
use crate::reader::SIZE;
use bytes::Bytes;
use slatedb_oracle::transaction_manager::{Active, Entry, State};
use std::ops::Bound;

fn two(number: usize) -> [u8; 2] {
    u16::try_from(number).expect("a number of two bytes").to_be_bytes()
}

fn set(keys: &[Bytes]) -> Vec<u8> {
    let key = |key: &Bytes| [&two(key.len())[..], key].concat();
    [two(keys.len()).to_vec(), keys.iter().flat_map(key).collect()].concat()
}

fn bound(bound: &Bound<Bytes>) -> Vec<u8> {
    match bound {
        Bound::Unbounded => field(0x10, &[]),
        Bound::Included(key) => field(0x11, key),
        Bound::Excluded(key) => field(0x12, key),
    }
}

fn entry(entry: &Entry) -> Vec<u8> {
    [entry.seq.to_be_bytes().to_vec(), set(&entry.keys)].concat()
}

fn active(txn: &Active) -> Vec<u8> {
    let head = [&txn.id[..], &txn.start.to_be_bytes()].concat();
    let ranges = txn.ranges.iter().flat_map(|(start, end)| [bound(start), bound(end)].concat());
    let count = two(txn.ranges.len()).to_vec();
    [head, set(&txn.writes), set(&txn.reads), count, ranges.collect()].concat()
}

pub fn written(state: &State) -> Vec<u8> {
    let counts = [two(state.entries.len()), two(state.active.len())].concat();
    let head = [b"Stranvk1", &state.last.to_be_bytes()[..], &counts].concat();
    let entries = state.entries.iter().flat_map(entry);
    head.into_iter().chain(entries).chain(state.active.iter().flat_map(active)).collect()
}

/// A whole room that records a state.
pub fn room_of(state: &State) -> Vec<u8> {
    let mut room = written(state);
    assert!(room.len() <= SIZE, "a record that a room has space for");
    room.resize(SIZE, 0x3c);
    room
}
