//! Runs that are chosen one by one, and every pair of calls after a common beginning.

use super::Sample;
use crate::call::{field, id_of, list_of, Call};
use crate::totals::KEY_LIMIT;

const A: u8 = 0x41;
const B: u8 = 0x42;
const C: u8 = 0x43;
const D: u8 = 0x44;

fn begin(id: u8) -> Call {
    Call::NewTransaction(id_of(id))
}

fn writes(id: u8, keys: &[&[u8]]) -> Call {
    Call::Writes(id_of(id), list_of(keys))
}

fn reads(id: u8, keys: &[&[u8]]) -> Call {
    Call::Reads(id_of(id), list_of(keys))
}

/// A range between two bounds, each a tag and a key.
fn range(id: u8, start: (u8, &[u8]), end: (u8, &[u8])) -> Call {
    Call::Range(id_of(id), [field(start.0, start.1), field(end.0, end.1)].concat())
}

fn check(id: u8) -> Call {
    Call::Check(id_of(id))
}

fn commit(id: u8, seq: u64) -> Call {
    Call::Commit(id_of(id), seq)
}

fn batch(seq: u64, keys: &[&[u8]]) -> Call {
    Call::Batch(list_of(keys), seq)
}

fn leave(id: u8) -> Call {
    Call::Drop(id_of(id))
}

/// Document 01's script P.
fn script_p() -> Vec<Call> {
    let k: &[&[u8]] = &[b"k"];
    vec![
        begin(A),
        begin(B),
        writes(A, k),
        reads(B, k),
        check(B),
        commit(A, 7),
        check(B),
        begin(C),
        writes(C, k),
        check(C),
        leave(B),
        Call::Minimum,
        commit(D, 9),
        leave(C),
        Call::Minimum,
    ]
}

/// A batch at and above the start, on keys that A tracks in each way or just misses.
fn conflicts(sample: &mut Sample) {
    let tracks = [
        writes(A, &[b"j", b"k"]),
        reads(A, &[b"k", b"l"]),
        range(A, (0x11, b"k"), (0x11, b"k")),
        range(A, (0x12, b"j"), (0x12, b"l")),
        range(A, (0x12, b"k"), (0x10, b"")),
        range(A, (0x10, b""), (0x12, b"k")),
        range(A, (0x10, b""), (0x10, b"")),
    ];
    let batches: [&[&[u8]]; 5] = [&[b"k"], &[b"j\0", b"l"], &[b"k\0"], &[b""], &[]];
    for track in &tracks {
        for keys in batches {
            let calls = [
                begin(A),
                track.clone(),
                batch(7, keys),
                check(A),
                batch(8, keys),
                check(A),
                commit(A, 9),
                Call::Minimum,
            ];
            sample.run(7, &calls);
        }
    }
}

/// A committed transaction's reads count for nothing, and its writes from its commit on.
fn committed(sample: &mut Sample) {
    let own = [writes(A, &[b"k"]), reads(A, &[b"k"]), range(A, (0x10, b""), (0x10, b""))];
    for track in own {
        let calls = [
            begin(A),
            begin(B),
            track,
            writes(B, &[b"k"]),
            check(A),
            check(B),
            commit(A, 8),
            check(B),
            begin(C),
            writes(C, &[b"k"]),
            check(C),
            commit(B, 9),
            check(C),
            leave(C),
        ];
        sample.run(7, &calls);
    }
}

/// Entries are pruned by a drop, against the least start that is left, and not by a commit.
fn pruning(sample: &mut Sample) {
    for dropped in [A, B, C, D] {
        let calls = [
            begin(A),
            batch(8, &[b"k"]),
            begin(B),
            batch(9, &[b"k"]),
            batch(5, &[b"j"]),
            begin(C),
            batch(12, &[]),
            reads(C, &[b"k"]),
            leave(dropped),
            check(C),
            Call::Minimum,
            commit(A, 12),
            leave(D),
            commit(B, 13),
            leave(D),
            check(C),
            leave(C),
            leave(C),
            Call::Minimum,
        ];
        sample.run(7, &calls);
    }
}

fn unknown_ids(sample: &mut Sample) {
    let calls = [
        check(D),
        writes(D, &[b"k"]),
        reads(D, &[b"k"]),
        range(D, (0x10, b""), (0x10, b"")),
        leave(D),
        commit(D, 9),
        commit(D, 8),
        Call::Minimum,
        begin(A),
        begin(A),
        batch(10, &[b"k"]),
        leave(D),
        commit(D, 12),
        check(D),
        leave(A),
    ];
    sample.run(7, &calls);
}

/// Sequences up to the largest, and down again.
fn sequences(sample: &mut Sample) {
    for last in [0, 1, 1 << 32, u64::MAX - 1, u64::MAX] {
        let calls = [
            begin(A),
            writes(A, &[b"k"]),
            batch(u64::MAX - 1, &[b"k"]),
            check(A),
            begin(B),
            reads(B, &[b"k"]),
            batch(u64::MAX, &[b"k"]),
            check(B),
            begin(C),
            batch(0, &[b"k"]),
            commit(B, 1),
            leave(D),
            check(A),
            Call::Minimum,
            leave(A),
            Call::Minimum,
            commit(C, u64::MAX),
            commit(D, 3),
        ];
        sample.run(last, &calls);
    }
}

/// Each record that is badly formed, too long or empty, and A's state after them.
fn refused(sample: &mut Sample) {
    sample.run(7, &[begin(A), begin(B), batch(8, &[b"k"])]);
    let id = id_of(A);
    let long = [0x61; KEY_LIMIT + 1];
    for call in [
        writes(A, &[b"k", &long]),
        reads(A, &[&long, b"k"]),
        batch(9, &[&long]),
        range(A, (0x11, &long), (0x10, b"")),
        range(A, (0x12, b"k"), (0x12, &long)),
        range(A, (0x11, b"k"), (0x12, b"k")),
        range(A, (0x12, b"k"), (0x11, b"k")),
        range(A, (0x11, b"k\0"), (0x11, b"k")),
        range(A, (0x10, b"k"), (0x10, b"")),
        range(A, (0x4b, b"k"), (0x10, b"")),
        range(D, (0x12, b"k"), (0x12, b"k")),
    ] {
        sample.ask(&call);
    }
    for tag in 0x01..=0x09 {
        for length in [0, 1, 7, 15, 17, 23, 25] {
            sample.ask_raw(tag, &vec![A; length]);
        }
    }
    for list in [&b"\x4b"[..], b"\x4b\0", b"\x4b\0\x02k", b"\x4b\0\x01k\x10\0\0", b"\x11\0\x01k"] {
        sample.ask_raw(0x02, &[&id[..], list].concat());
        sample.ask_raw(0x03, &[&id[..], list].concat());
        sample.ask_raw(0x04, &[&id[..], list].concat());
        sample.ask_raw(0x07, &[&9u64.to_be_bytes(), list].concat());
    }
    [check(A), commit(A, 9), check(B), leave(B)].iter().for_each(|call| sample.ask(call));
}

pub fn runs(sample: &mut Sample) {
    sample.run(0, &script_p());
    conflicts(sample);
    committed(sample);
    pruning(sample);
    unknown_ids(sample);
    sequences(sample);
    refused(sample);
}

fn alphabet() -> Vec<Call> {
    vec![
        begin(A),
        begin(C),
        writes(A, &[b"k", b"j", b"k"]),
        writes(B, &[]),
        reads(A, &[b"j"]),
        range(A, (0x12, b""), (0x11, b"k")),
        range(C, (0x10, b""), (0x10, b"")),
        check(A),
        commit(A, 8),
        commit(B, 7),
        commit(B, 9),
        batch(8, &[b"k"]),
        batch(6, &[b"k"]),
        leave(A),
        leave(B),
        Call::Minimum,
    ]
}

/// Every pair of calls after two have begun, and what both say then.
pub fn every_pair(sample: &mut Sample) {
    let calls = alphabet();
    for first in &calls {
        for second in &calls {
            sample.run(7, &[begin(A), begin(B), writes(A, &[b"k"]), reads(B, &[b"k"])]);
            [first, second, &check(A), &check(B)].iter().for_each(|call| sample.ask(call));
        }
    }
}
