//! Runs near the ceilings: status 6 comes exactly when the machine's totals say, and what is freed can be used again.

use differential::emulated;
use differential::random::Random;
use judge::both::Both;
use judge::call::{field, list_of, Call};
use judge::draws;
use judge::numbered::{key, keys};
use judge::reader::SIZE;
use judge::totals::{totals, ACTIVE_LIMIT, BYTE_LIMIT, ENTRY_LIMIT, KEY_LIMIT, MARK_LIMIT};
use stranvek::numbers::{AGAIN, DONE, FULL, LONG_KEY};

fn id(n: usize) -> Vec<u8> {
    [&[0x5a; 14], &(n as u16).to_be_bytes()[..]].concat()
}

/// Serves a call that must have the status.
fn expect(both: &mut Both, status: u8, call: Call) -> u64 {
    let (answer, _) = both.call(&call);
    assert_eq!(answer.status, status, "{:02x?}", call);
    answer.value
}

fn begun(count: usize) -> Both {
    let mut both = Both::fresh(7, 0);
    for n in 0..count {
        expect(&mut both, DONE, Call::NewTransaction(id(n)));
    }
    both
}

#[test]
fn the_published_size() {
    assert_eq!(stranvek::boundary::room_size(), SIZE);
}

#[test]
fn active_transactions() {
    let mut both = begun(ACTIVE_LIMIT);
    expect(&mut both, FULL, Call::NewTransaction(id(ACTIVE_LIMIT)));
    expect(&mut both, AGAIN, Call::NewTransaction(id(0)));
    expect(&mut both, DONE, Call::Drop(id(3)));
    expect(&mut both, DONE, Call::NewTransaction(id(ACTIVE_LIMIT)));
    expect(&mut both, FULL, Call::NewTransaction(id(3)));
    expect(&mut both, DONE, Call::Commit(id(4), 9));
    expect(&mut both, DONE, Call::NewTransaction(id(3)));
}

#[test]
fn entries() {
    let mut both = begun(2);
    for n in 0..ENTRY_LIMIT {
        expect(&mut both, DONE, Call::Batch(keys(n, 1, 2), 8 + n as u64));
    }
    expect(&mut both, FULL, Call::Batch(keys(0, 0, 2), 8));
    expect(&mut both, FULL, Call::Commit(id(0), 900));
    expect(&mut both, DONE, Call::Drop(id(1)));
    assert_eq!(both.judge.state.entries.len(), ENTRY_LIMIT);
    expect(&mut both, FULL, Call::Batch(keys(0, 0, 2), 8));
    assert_eq!(expect(&mut both, DONE, Call::Commit(id(0), 900)), 900);
    assert!(both.judge.state.entries.is_empty());
    expect(&mut both, DONE, Call::Batch(keys(0, 2_000, 2), 901));
}

#[test]
fn marks() {
    let mut both = begun(3);
    expect(&mut both, DONE, Call::Writes(id(0), keys(0, 500, 2)));
    expect(&mut both, DONE, Call::Reads(id(0), keys(0, 500, 2)));
    expect(&mut both, FULL, Call::Writes(id(1), keys(0, 25, 2)));
    let again = [keys(0, 24, 2), keys(0, 24, 2)].concat();
    assert_eq!(expect(&mut both, DONE, Call::Writes(id(1), again)), 24);
    assert_eq!(totals(&both.judge.state).0, MARK_LIMIT);
    assert_eq!(expect(&mut both, DONE, Call::Writes(id(0), keys(0, 500, 2))), 0);
    let all = [field(0x10, &[]), field(0x10, &[])].concat();
    expect(&mut both, FULL, Call::Range(id(2), all.clone()));
    expect(&mut both, FULL, Call::Reads(id(2), list_of(&[""])));
    expect(&mut both, FULL, Call::Batch(list_of(&[""]), 9));
    expect(&mut both, DONE, Call::Batch(keys(0, 0, 2), 9));
    // Its reads go, its writes move into an entry.
    expect(&mut both, DONE, Call::Commit(id(0), 9));
    assert_eq!(totals(&both.judge.state).0, MARK_LIMIT - 500);
    for _ in 0..500 {
        expect(&mut both, DONE, Call::Range(id(2), all.clone()));
    }
    expect(&mut both, FULL, Call::Range(id(1), all));
}

#[test]
fn key_bytes() {
    let mut both = begun(3);
    expect(&mut both, LONG_KEY, Call::Writes(id(0), keys(0, 1, KEY_LIMIT + 1)));
    expect(&mut both, DONE, Call::Writes(id(0), keys(0, 62, KEY_LIMIT)));
    let ends =
        |longest: usize| [field(0x11, &key(1, KEY_LIMIT)), field(0x12, &key(2, longest))].concat();
    expect(&mut both, DONE, Call::Range(id(1), ends(KEY_LIMIT - 2)));
    assert_eq!(totals(&both.judge.state).1, BYTE_LIMIT - 2);
    expect(&mut both, FULL, Call::Reads(id(2), list_of(&["abc"])));
    expect(&mut both, FULL, Call::Batch(list_of(&["a", "bc"]), 9));
    expect(&mut both, DONE, Call::Batch(list_of(&["a", "b"]), 9));
    assert_eq!(totals(&both.judge.state).1, BYTE_LIMIT);
    expect(&mut both, FULL, Call::Reads(id(2), list_of(&["a"])));
    assert_eq!(expect(&mut both, DONE, Call::Reads(id(2), list_of(&[""]))), 1);
    expect(&mut both, DONE, Call::Drop(id(0)));
    expect(&mut both, DONE, Call::Writes(id(2), keys(0, 62, KEY_LIMIT)));
    expect(&mut both, FULL, Call::Range(id(2), ends(2)));
}

/// A call that asks for much: many ids, long lists, keys of any length.
fn large(random: &mut Random, last: u64) -> Call {
    let id = id(random.below(40));
    let list = |random: &mut Random| {
        let length = random.pick(&[2, 2, 8, 40, 200, KEY_LIMIT]);
        let count = random.below(if length < 40 { 120 } else { 24 });
        keys(random.below(300), count, length)
    };
    match random.below(100) {
        0..=21 => Call::NewTransaction(id),
        22..=41 => Call::Writes(id, list(random)),
        42..=49 => Call::Reads(id, list(random)),
        50..=53 => Call::Range(id, draws::bounds(random)),
        54..=57 => Call::Check(id),
        58..=63 => Call::Commit(id, draws::sequence(random, last)),
        64..=65 => Call::Batch(list(random), draws::sequence(random, last)),
        66..=95 => Call::Batch(keys(random.below(300), 2, 2), draws::sequence(random, last)),
        _ => Call::Drop(id),
    }
}

#[test]
fn random_runs_that_fill_rooms() {
    let mut random = Random::seeded(11);
    let mut statuses = [0u64; 8];
    let mut full = [false; 4];
    let runs = emulated::draws(20);
    for run in 0..runs {
        let mut both = Both::fresh(run, 0xff);
        for _ in 0..1_000 {
            let call = large(&mut random, both.judge.state.last);
            statuses[usize::from(both.call(&call).0.status)] += 1;
            let (marks, bytes) = totals(&both.judge.state);
            full[0] |= both.judge.state.active.len() == ACTIVE_LIMIT;
            full[1] |= both.judge.state.entries.len() == ENTRY_LIMIT;
            full[2] |= marks > MARK_LIMIT - 8;
            full[3] |= bytes > BYTE_LIMIT - 64;
        }
    }
    println!("statuses 0 to 7: {:?}, full {:?}", statuses, full);
    assert!(full.iter().all(|&met| met) && statuses[usize::from(FULL)] > 50 * runs);
}
