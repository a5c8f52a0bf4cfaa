//! The port, the original and the simple manager give the same answers: each call goes to all three.

mod crowded;

use bench::manager::simple::Simple;
use differential::emulated;
use differential::random::Random;
use judge::call::{self, Call};
use judge::{draws, totals, Judge};
use stranvek::boundary::Answer;
use stranvek::numbers::{DONE, FULL};

/// Above the published size.
const ROOM: usize = 65_536;

struct All {
    room: Vec<u8>,
    judge: Judge,
    simple: Simple,
}

impl All {
    fn fresh(last: u64) -> All {
        let mut all =
            All { room: vec![0; ROOM], judge: Judge::fresh(last), simple: Simple::new(last) };
        all.call(&Call::New(last));
        all
    }

    fn call(&mut self, call: &Call) -> Answer {
        let port = call.ask(&mut self.room);
        let original = self.judge.answer(call);
        let simple = asked(&mut self.simple, call);
        assert_eq!([port, original], [simple, simple], "to {:02x?}", call);
        simple
    }
}

fn asked(simple: &mut Simple, call: &Call) -> Answer {
    match call {
        Call::New(last) => {
            *simple = Simple::new(*last);
            Answer { status: DONE, value: *last }
        }
        Call::NewTransaction(id) => simple.new_transaction(id),
        Call::Drop(id) => simple.drop_txn(id),
        Call::Writes(id, list) => simple.track_write_keys(id, list),
        Call::Reads(id, list) => simple.track_read_keys(id, list),
        Call::Range(id, bounds) => simple.track_read_range(id, bounds),
        Call::Check(id) => simple.check_has_conflict(id),
        Call::Commit(id, seq) => simple.track_recent_committed_txn(id, *seq),
        Call::Batch(list, seq) => simple.track_recent_committed_write_batch(list, *seq),
        Call::Minimum => simple.min_active_seq(),
    }
}

/// How often each status was answered, how many checks said conflict, and how often 6 was answered to begin, track, commit, batch.
#[derive(Debug, Default)]
struct Met {
    statuses: [u64; 8],
    conflicts: u64,
    no_room: [u64; 4],
}

impl Met {
    fn note(&mut self, call: &Call, answer: Answer) {
        self.statuses[usize::from(answer.status)] += 1;
        let full = u64::from(answer.status == FULL);
        match call {
            Call::Check(_) => self.conflicts += answer.value,
            Call::NewTransaction(_) => self.no_room[0] += full,
            Call::Writes(..) | Call::Reads(..) | Call::Range(..) => self.no_room[1] += full,
            Call::Commit(..) => self.no_room[2] += full,
            Call::Batch(..) => self.no_room[3] += full,
            Call::New(_) | Call::Drop(_) | Call::Minimum => assert_eq!(full, 0),
        }
    }
}

/// Begins anew with fresh managers after so many calls.
fn compare(calls: u64, run: u64, draw: fn(&mut Random, u64) -> Call) -> Met {
    let mut random = Random::seeded(run);
    let mut all = All::fresh(0);
    let mut met = Met::default();
    for n in 0..calls {
        if n % run == 0 {
            all = All::fresh(draws::sequence(&mut random, 7));
        }
        let call = draw(&mut random, all.judge.state.last);
        met.note(&call, all.call(&call));
    }
    println!("{:?}", met);
    assert_eq!(met.statuses.iter().sum::<u64>(), calls);
    met
}

#[test]
fn random_runs() {
    const CALLS: u64 = 50_000;
    let met = compare(CALLS, 400, draws::call);
    assert!(met.statuses[..6].iter().all(|&n| n > CALLS / 1_000));
    assert!(met.conflicts > CALLS / 100);
}

#[test]
fn crowded_runs() {
    let calls = emulated::draws(10_000);
    for draw in [crowded::short_keys, crowded::long_keys] {
        let met = compare(calls, 1_000, draw);
        assert!(met.no_room.iter().all(|&n| n > calls / 1_000));
        assert!(met.conflicts > calls / 1_000);
    }
}

/// Too rare for the random runs.
#[test]
fn alone_with_all_entries() {
    let mut all = All::fresh(0);
    let [one, other] = [call::id_of(1), call::id_of(2)];
    all.call(&Call::NewTransaction(one.clone()));
    let batch = Call::Batch(Vec::new(), 1);
    let kept = (0..200).filter(|_| all.call(&batch).status == DONE).count();
    assert_eq!(kept, totals::ENTRY_LIMIT);
    all.call(&Call::NewTransaction(other.clone()));
    let commit = Call::Commit(one, 2);
    assert_eq!(all.call(&commit), Answer { status: FULL, value: 0 });
    all.call(&Call::Drop(other));
    assert_eq!(all.call(&commit), Answer { status: DONE, value: 2 });
}
