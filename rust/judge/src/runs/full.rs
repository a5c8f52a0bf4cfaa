//! Runs that fill a room to each ceiling, ask for one more, and use what is freed again.

use super::Sample;
use crate::call::{field, id_of, list_of, Call};
use crate::numbered::keys;
use crate::totals::{ACTIVE_LIMIT, ENTRY_LIMIT, KEY_LIMIT};

/// The id of one transaction too many.
const BEYOND: u8 = ACTIVE_LIMIT as u8;

fn active(sample: &mut Sample) {
    sample.fresh(7);
    (0..=BEYOND).for_each(|n| sample.ask(&Call::NewTransaction(id_of(n))));
    for call in [
        Call::NewTransaction(id_of(0)),
        Call::Drop(id_of(3)),
        Call::NewTransaction(id_of(BEYOND)),
        Call::NewTransaction(id_of(3)),
        Call::Commit(id_of(4), 9),
        Call::NewTransaction(id_of(3)),
    ] {
        sample.ask(&call);
    }
}

fn entries(sample: &mut Sample) {
    sample.run(7, &[Call::NewTransaction(id_of(0)), Call::NewTransaction(id_of(1))]);
    for n in 0..=ENTRY_LIMIT {
        sample.ask(&Call::Batch(keys(n, 1, 2), 8 + n as u64));
    }
    for call in [
        Call::Commit(id_of(0), 900),
        Call::Drop(id_of(1)),
        Call::Batch(Vec::new(), 8),
        Call::Commit(id_of(0), 900),
        Call::Minimum,
        Call::Batch(keys(0, 2_000, 2), 901),
    ] {
        sample.ask(&call);
    }
}

fn marks(sample: &mut Sample) {
    let all = [field(0x10, &[]), field(0x10, &[])].concat();
    sample.run(7, &[Call::NewTransaction(id_of(0)), Call::NewTransaction(id_of(1))]);
    for call in [
        Call::Writes(id_of(0), keys(0, 1_025, 2)),
        Call::Writes(id_of(0), keys(0, 1_000, 2)),
        Call::Reads(id_of(1), keys(0, 25, 2)),
        Call::Reads(id_of(1), [keys(0, 24, 2), keys(0, 24, 2)].concat()),
        Call::Writes(id_of(0), keys(0, 1_000, 2)),
        Call::Reads(id_of(0), keys(0, 1, 2)),
        Call::Range(id_of(1), all.clone()),
        Call::Batch(keys(0, 1, 2), 9),
        Call::Batch(Vec::new(), 9),
        Call::Commit(id_of(0), 10),
        Call::Range(id_of(1), all.clone()),
        Call::Check(id_of(1)),
        Call::Drop(id_of(1)),
        Call::NewTransaction(id_of(1)),
        Call::Range(id_of(1), all),
    ] {
        sample.ask(&call);
    }
}

fn key_bytes(sample: &mut Sample) {
    let half = KEY_LIMIT / 2;
    sample.run(7, &[Call::NewTransaction(id_of(0)), Call::NewTransaction(id_of(1))]);
    for call in [
        Call::Writes(id_of(0), keys(0, 63, KEY_LIMIT)),
        Call::Reads(id_of(1), keys(0, 2, half + 1)),
        Call::Reads(id_of(1), keys(0, 2, half)),
        Call::Reads(id_of(0), list_of(&["a"])),
        Call::Range(id_of(0), [field(0x10, b""), field(0x11, b"a")].concat()),
        Call::Batch(list_of(&["a"]), 9),
        Call::Reads(id_of(0), list_of(&[""])),
        Call::Drop(id_of(1)),
        Call::Reads(id_of(0), keys(0, 1, KEY_LIMIT)),
        Call::Commit(id_of(0), 9),
        Call::Minimum,
    ] {
        sample.ask(&call);
    }
}

pub fn runs(sample: &mut Sample) {
    active(sample);
    entries(sample);
    marks(sample);
    key_bytes(sample);
}
