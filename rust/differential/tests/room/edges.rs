//! Rooms that record a state at a ceiling are served, and refused with 7 one step beyond it.

use bytes::Bytes;
use judge::met::{calls, Met};
use judge::numbered;
use judge::reader::SIZE;
use judge::totals::{totals, ACTIVE_LIMIT, BYTE_LIMIT, ENTRY_LIMIT, KEY_LIMIT, MARK_LIMIT};
use judge::writer::{room_of, written};
use slatedb_oracle::transaction_manager::{Active, Entry, KeyRange, State};
use std::ops::Bound::{Excluded, Included, Unbounded};

fn key(n: usize, length: usize) -> Bytes {
    numbered::key(n, length).into()
}

fn keys(count: usize, length: usize) -> Vec<Bytes> {
    (0..count).map(|n| key(n, length)).collect()
}

fn active(n: usize) -> Active {
    let id = [n as u8; 16];
    Active { id, start: 5, writes: Vec::new(), reads: Vec::new(), ranges: Vec::new() }
}

/// A state of one active transaction, the one that the calls name, after a change.
fn state(change: impl FnOnce(&mut State)) -> State {
    let mut state = State { last: 7, entries: Vec::new(), active: vec![active(0)] };
    change(&mut state);
    state
}

fn actives(count: usize) -> State {
    state(|state| state.active = (0..count).map(active).collect())
}

fn entries(count: usize) -> State {
    let entry = |n| Entry { seq: 6, keys: vec![key(n, 2)] };
    state(|state| state.entries = (0..count).map(entry).collect())
}

/// Marks of every sort.
fn marks(count: usize) -> State {
    state(|state| {
        state.entries = vec![Entry { seq: 6, keys: keys(300, 2) }];
        state.active[0].writes = keys(300, 3);
        state.active[0].reads = keys(300, 2);
        state.active[0].ranges = vec![(Unbounded, Unbounded); count - 900];
    })
}

/// Key bytes of every sort.
fn key_bytes(count: usize) -> State {
    state(|state| {
        state.entries = vec![Entry { seq: 6, keys: keys(20, KEY_LIMIT) }];
        state.active[0].writes = keys(20, KEY_LIMIT);
        state.active[0].reads = keys(22, KEY_LIMIT);
        let left = count - 62 * KEY_LIMIT;
        state.active[0].ranges =
            vec![(Included(key(0, left / 2)), Excluded(key(1, left - left / 2 - 1)))];
        state.active[0].reads.push(Bytes::from_static(&[0xff]));
    })
}

/// All four ceilings at once, every mark a range: the record fills the room to its last byte.
fn fullest() -> State {
    let range = (Included(key(0, 16)), Excluded(key(1, 16)));
    let entry = Entry { seq: 6, keys: Vec::new() };
    let full = state(|state| {
        state.entries = vec![entry; ENTRY_LIMIT];
        state.active = (0..ACTIVE_LIMIT).map(active).collect();
        let each = MARK_LIMIT / ACTIVE_LIMIT;
        state.active.iter_mut().for_each(|txn| txn.ranges = vec![range.clone(); each]);
    });
    assert_eq!(totals(&full), (MARK_LIMIT, BYTE_LIMIT));
    assert_eq!(written(&full).len(), SIZE);
    full
}

fn long_key(length: usize) -> [State; 5] {
    let ranges = |range: KeyRange| state(|state| state.active[0].ranges = vec![range]);
    [
        state(|state| state.entries = vec![Entry { seq: 6, keys: keys(1, length) }]),
        state(|state| state.active[0].writes = keys(1, length)),
        state(|state| state.active[0].reads = keys(1, length)),
        ranges((Included(key(0, length)), Unbounded)),
        ranges((Unbounded, Excluded(key(0, length)))),
    ]
}

fn times(last: u64, start: u64, seq: u64) -> State {
    state(|state| {
        state.last = last;
        state.active[0].start = start;
        state.entries = vec![Entry { seq, keys: keys(1, 2) }];
    })
}

fn range(range: KeyRange) -> State {
    state(|state| state.active[0].ranges = vec![range])
}

#[test]
fn states_at_an_edge_are_served() {
    let k = || key(0, 2);
    let mut at = vec![
        actives(ACTIVE_LIMIT),
        entries(ENTRY_LIMIT),
        marks(MARK_LIMIT),
        key_bytes(BYTE_LIMIT),
        fullest(),
        times(7, 7, 7),
        times(u64::MAX, u64::MAX, u64::MAX),
        range((Included(k()), Included(k()))),
        range((Unbounded, Excluded(Bytes::new()))),
        state(|state| state.active.clear()),
    ];
    at.extend(long_key(KEY_LIMIT));
    let mut met = Met::default();
    at.iter().for_each(|state| met.serve(&room_of(state), &calls()));
    assert_eq!((met.served, met.refused), ((at.len() * calls().len()) as u64, 0));
}

#[test]
fn states_beyond_an_edge_are_refused() {
    let k = || key(0, 2);
    let mut beyond = vec![
        actives(ACTIVE_LIMIT + 1),
        entries(ENTRY_LIMIT + 1),
        marks(MARK_LIMIT + 1),
        key_bytes(BYTE_LIMIT + 1),
        times(7, 8, 7),
        times(7, 7, 8),
        range((Included(k()), Excluded(k()))),
        range((Excluded(k()), Included(k()))),
        state(|state| state.active = vec![active(0), active(0)]),
        state(|state| state.active = vec![active(1), active(0)]),
        state(|state| state.active[0].writes = vec![k(), k()]),
        state(|state| state.active[0].reads = vec![key(1, 2), k()]),
        State { active: Vec::new(), ..entries(1) },
    ];
    beyond.extend(long_key(KEY_LIMIT + 1));
    let mut met = Met::default();
    beyond.iter().for_each(|state| met.serve(&room_of(state), &calls()));
    assert_eq!((met.served, met.refused), (0, (beyond.len() * calls().len()) as u64));
}
