//! The increment recurses on what stands before the last ff, so the limit of a key bounds the stack that it takes.

use crate::expected;
use crate::tally::Tally;
use std::thread;
use stranvek_sys::answers::{MadeKey, MadeKeys, RawBound, RawRange, KEY_LIMIT, UNBOUNDED};
use stranvek_sys::boundary;

/// A thread's whole stack.
const STACK: usize = 64 * 1024;

const EVERYTHING: RawRange = {
    let unbounded = RawBound { kind: UNBOUNDED, key: &[] };
    RawRange { start: unbounded, end: unbounded }
};

/// What the three functions that increment answer, each on a small stack of its own.
fn on_small_stacks(prefix: &'static [u8]) -> (MadeKey, MadeKeys, MadeKeys) {
    fn run<T: Send + 'static>(call: impl FnOnce() -> T + Send + 'static) -> T {
        let small = thread::Builder::new().stack_size(STACK);
        let thread = small.spawn(call).expect("a thread with a small stack");
        thread.join().expect("an answer")
    }
    (
        run(move || boundary::increment_prefix(prefix)),
        run(move || boundary::from_prefix(prefix)),
        run(move || boundary::from_prefix_and_subrange(prefix, EVERYTHING)),
    )
}

#[test]
fn runs_of_ff_on_a_small_stack() {
    let with_front = |mut prefix: Vec<u8>| {
        prefix[0] = 0x61;
        prefix
    };
    let mut tally = Tally::default();
    for length in [KEY_LIMIT - 1, KEY_LIMIT, KEY_LIMIT + 1, 10_000_000] {
        for prefix in [vec![0xff; length], with_front(vec![0xff; length])] {
            let prefix: &'static [u8] = prefix.leak();
            let (incremented, whole, sub) = on_small_stacks(prefix);
            tally.same(incremented, expected::increment_prefix(prefix), &length);
            tally.same(whole, expected::from_prefix(prefix), &length);
            let theirs = expected::from_prefix_and_subrange(prefix, EVERYTHING);
            tally.same(sub, theirs, &length);
        }
    }
    tally.close(4 * 2 * 3);
}
