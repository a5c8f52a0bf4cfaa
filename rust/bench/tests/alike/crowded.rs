//! Random calls with many ids and many keys, so that the ceilings are met.

use differential::random::Random;
use judge::call::{field, id_of, list_of, Call};
use judge::draws::sequence;

/// With short keys the marks run out first.
pub fn short_keys(random: &mut Random, last: u64) -> Call {
    call(random, last, &[2])
}

/// With long ones the key bytes do.
pub fn long_keys(random: &mut Random, last: u64) -> Call {
    call(random, last, &[2, 40, 200])
}

fn call(random: &mut Random, last: u64, fronts: &[usize]) -> Call {
    match random.below(100) {
        0..=29 => Call::NewTransaction(id(random)),
        30..=39 => Call::Writes(id(random), list(random, fronts)),
        40..=44 => Call::Reads(id(random), list(random, fronts)),
        45..=49 => Call::Range(id(random), bounds(random, fronts)),
        50..=54 => Call::Check(id(random)),
        55..=59 => Call::Commit(id(random), sequence(random, last)),
        60..=97 => Call::Batch(list(random, fronts), sequence(random, last)),
        98 => Call::Drop(id(random)),
        _ => Call::Minimum,
    }
}

fn id(random: &mut Random) -> Vec<u8> {
    id_of(random.below(36) as u8)
}

/// A front of one of some lengths, and one of 400 numbers.
fn key(random: &mut Random, fronts: &[usize]) -> Vec<u8> {
    let front = vec![0x61; random.pick(fronts)];
    let number = random.below(400) as u16;
    [front, number.to_be_bytes().to_vec()].concat()
}

fn list(random: &mut Random, fronts: &[usize]) -> Vec<u8> {
    let length = random.pick(&[0, 0, 1, 1, 2, 8, 30]);
    let keys: Vec<Vec<u8>> = (0..length).map(|_| key(random, fronts)).collect();
    list_of(&keys)
}

/// From a key to one that begins with it.
fn bounds(random: &mut Random, fronts: &[usize]) -> Vec<u8> {
    let start = key(random, fronts);
    let end = [&start[..], &[0]].concat();
    [field(0x11, &start), field(0x12, &end)].concat()
}
