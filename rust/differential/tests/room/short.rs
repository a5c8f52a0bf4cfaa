//! Every run of up to six calls over a small alphabet.

use judge::both::Both;
use judge::call::{field, id_of, list_of, Call};
use std::thread;

const LENGTH: usize = 6;

fn alphabet() -> Vec<Call> {
    let (a, b) = (|| id_of(0x0a), || id_of(0x0b));
    let (k, none) = (|| list_of(&["k"]), || list_of::<&[u8]>(&[]));
    let range = || [field(0x12, b""), field(0x11, b"k")].concat();
    vec![
        Call::NewTransaction(a()),
        Call::NewTransaction(b()),
        Call::Writes(a(), k()),
        Call::Writes(b(), list_of(&["k", "j", "k"])),
        Call::Reads(a(), k()),
        Call::Reads(b(), none()),
        Call::Range(a(), range()),
        Call::Range(b(), range()),
        Call::Check(a()),
        Call::Check(b()),
        Call::Commit(a(), 8),
        Call::Commit(b(), 7),
        Call::Commit(b(), 9),
        Call::Batch(k(), 8),
        Call::Batch(k(), 6),
        Call::Batch(none(), 9),
        Call::Drop(a()),
        Call::Drop(b()),
        Call::New(8),
        Call::Minimum,
    ]
}

/// Serves a call and every run of calls after it; the number of calls served. After a call that changed
/// nothing the same calls would be served on the same bytes again, so the run ends there.
fn extend(both: &Both, call: &Call, calls: &[Call], left: usize) -> u64 {
    let mut next = both.clone();
    let (_, changed) = next.call(call);
    if !changed || left == 1 {
        return 1;
    }
    1 + calls.iter().map(|call| extend(&next, call, calls, left - 1)).sum::<u64>()
}

#[test]
fn every_short_run() {
    let calls = alphabet();
    let start = Both::fresh(7, 0xa5);
    let served: u64 = thread::scope(|scope| {
        let halves = [0, 1].map(|half| {
            let (calls, start) = (&calls, &start);
            scope.spawn(move || {
                let firsts = calls.iter().skip(half).step_by(2);
                firsts.map(|first| extend(start, first, calls, LENGTH)).sum::<u64>()
            })
        });
        halves.map(|half| half.join().expect("no difference")).iter().sum()
    });
    println!("served {}", served);
    assert!(served > 100_000);
}
