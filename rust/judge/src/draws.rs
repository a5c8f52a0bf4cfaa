//! Random calls with few ids and few short keys, so that conflicts, repeats and ties happen.

use crate::call::{field, id_of, list_of, Call};
use crate::records::record;
use crate::totals::KEY_LIMIT;
use differential::random::Random;

const KEYS: [&[u8]; 8] = [b"", b"a", b"a\0", b"ab", b"b", b"ba", b"\xff", b"\xff\xff"];

pub fn id(random: &mut Random) -> Vec<u8> {
    if random.below(60) == 0 {
        let length = random.pick(&[0, 1, 15, 17, 32]);
        return vec![1; length];
    }
    let mut id = id_of(0);
    id[random.pick(&[0, 15])] = random.pick(&[0, 1, 2]);
    id
}

/// A list of some keys, at times with one twice, too long, or badly formed.
pub fn list(random: &mut Random) -> Vec<u8> {
    let length = random.pick(&[0, 1, 1, 1, 2, 2, 3, 5]);
    let keys: Vec<&[u8]> = (0..length).map(|_| random.pick(&KEYS)).collect();
    let list = list_of(&keys);
    match random.below(100) {
        0 => [list, list_of(&[[0x61; KEY_LIMIT + 1]])].concat(),
        1 => [list, list_of(&[[0x61; KEY_LIMIT]])].concat(),
        2 => damaged(random, list),
        3 => damaged(random, [list, list_of(&[[0x61; KEY_LIMIT + 1]])].concat()),
        _ => list,
    }
}

fn bound(random: &mut Random) -> Vec<u8> {
    match random.pick(&[0x10, 0x11, 0x11, 0x12, 0x12]) {
        0x10 => field(0x10, &[]),
        tag if random.below(100) == 0 => field(tag, &[0x61; KEY_LIMIT + 1]),
        tag => field(tag, random.pick(&KEYS)),
    }
}

pub fn bounds(random: &mut Random) -> Vec<u8> {
    let bounds = [bound(random), bound(random)].concat();
    match random.below(60) {
        0 => damaged(random, bounds),
        1 => [bounds, bound(random)].concat(),
        2 => [field(0x10, b"a"), bound(random)].concat(),
        _ => bounds,
    }
}

/// One byte gone, one too many, or one changed.
fn damaged(random: &mut Random, mut bytes: Vec<u8>) -> Vec<u8> {
    let at = random.below(bytes.len() + 1);
    match random.below(3) {
        0 => bytes.truncate(at),
        1 => bytes.insert(at, random.byte()),
        _ if at < bytes.len() => bytes[at] = random.byte(),
        _ => bytes.push(0x4b),
    }
    bytes
}

/// A sequence that rises, repeats or falls.
pub fn sequence(random: &mut Random, last: u64) -> u64 {
    match random.below(200) {
        0 => random.number(),
        1 => u64::MAX - random.below(2) as u64,
        2..=49 => last,
        50..=89 => last.saturating_sub(random.below(4) as u64),
        _ => last.saturating_add(1 + random.below(3) as u64),
    }
}

pub fn call(random: &mut Random, last: u64) -> Call {
    match random.below(100) {
        0..=19 => Call::NewTransaction(id(random)),
        20..=33 => Call::Writes(id(random), list(random)),
        34..=45 => Call::Reads(id(random), list(random)),
        46..=55 => Call::Range(id(random), bounds(random)),
        56..=71 => Call::Check(id(random)),
        72..=81 => Call::Commit(id(random), sequence(random, last)),
        82..=90 => Call::Batch(list(random), sequence(random, last)),
        91..=95 => Call::Drop(id(random)),
        _ => Call::Minimum,
    }
}

/// A script of random calls, whose sequences rise slowly.
pub fn script(random: &mut Random, calls: usize) -> Vec<u8> {
    (0..calls).flat_map(|n| record(&call(random, n as u64 / 4))).collect()
}
