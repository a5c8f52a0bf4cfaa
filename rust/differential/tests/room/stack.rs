//! The deepest calls are those that draft a set, which take up to 35,415 bytes; the rest is left to the thread itself.

use judge::both::Both;
use judge::call::{field, id_of, Call};
use judge::numbered::keys;
use judge::totals::KEY_LIMIT;
use std::thread;
use stranvek::boundary::Answer;
use stranvek::numbers::DONE;

/// A thread's whole stack.
const STACK: usize = 40 * 1024;

/// What the library answers on a small stack, and the room after it.
fn on_small_stack(mut room: Vec<u8>, call: &Call) -> (Answer, Vec<u8>) {
    let call = call.clone();
    let small = thread::Builder::new().stack_size(STACK);
    let thread = small.spawn(move || (call.ask(&mut room), room)).expect("a small stack");
    thread.join().expect("an answer")
}

#[test]
fn every_call_on_a_small_stack() {
    let keys = |from, count| keys(from, count, KEY_LIMIT);
    let range = [field(0x11, b"a"), field(0x10, b"")].concat();
    let calls = [
        Call::New(7),
        Call::NewTransaction(id_of(1)),
        Call::NewTransaction(id_of(2)),
        Call::Writes(id_of(1), keys(0, 30)),
        Call::Writes(id_of(1), keys(20, 20)),
        Call::Reads(id_of(2), keys(0, 10)),
        Call::Range(id_of(2), range),
        Call::Batch(keys(5, 10), 9),
        Call::Check(id_of(2)),
        Call::Commit(id_of(1), 10),
        Call::Minimum,
        Call::Drop(id_of(2)),
    ];
    let mut both = Both::fresh(3, 0);
    for call in &calls {
        let (answer, room) = on_small_stack(both.room.clone(), call);
        let (due, _) = both.call(call);
        assert_eq!((answer, answer.status), (due, DONE), "{:02x?}", call);
        assert!(room == both.room, "the room after {:02x?}", call);
    }
}
