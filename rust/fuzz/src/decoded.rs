//! The steps that a fuzzer's bytes stand for: short forms of well-formed arguments, and an escape to raw bytes for each.

use crate::input::Input;
use judge::call::{field, id_of, list_of, Call};

/// Lengths of long keys, about the key limit and about what fills a room.
const LONG: [usize; 8] = [29, 31, 32, 255, 256, 511, 512, 513];

/// More keys than a room takes marks.
const MANY: usize = 1_100;

#[derive(Debug)]
pub enum Step {
    Call(Call),
    /// A byte of the room set by a hand that is no call's.
    Damage(usize, u8),
}

/// The next step on a room whose last number is `last`.
pub fn step(input: &mut Input, last: u64) -> Step {
    let call = match input.byte() % 16 {
        0 | 1 => Call::NewTransaction(id(input)),
        2 | 3 => Call::Writes(id(input), list(input)),
        4 => Call::Reads(id(input), list(input)),
        5 | 6 => Call::Range(id(input), bounds(input)),
        7 | 8 => Call::Check(id(input)),
        9 => Call::Commit(id(input), sequence(input, last)),
        10 | 11 => Call::Batch(list(input), sequence(input, last)),
        12 => Call::Drop(id(input)),
        13 => Call::Minimum,
        14 => Call::New(sequence(input, last)),
        _ => return Step::Damage(input.two(), input.byte()),
    };
    Step::Call(call)
}

/// An id that differs from others at one byte, wherever that stands, or any bytes.
fn id(input: &mut Input) -> Vec<u8> {
    match input.byte() {
        0xf0..=0xff => input.counted().to_vec(),
        one => {
            let mut id = id_of(0);
            id[15 - usize::from(one >> 4)] = one & 0xf;
            id
        }
    }
}

/// Near the last number, or any.
fn sequence(input: &mut Input, last: u64) -> u64 {
    match input.byte() {
        0xf0..=0xff => input.eight(),
        step => last.saturating_add(u64::from(step % 8)).saturating_sub(3),
    }
}

fn key(input: &mut Input) -> Vec<u8> {
    match input.byte() {
        long @ 0xe0..=0xff => {
            let mut key = vec![input.byte(); LONG[usize::from(long % 8)]];
            key[0] = input.byte();
            key
        }
        short => input.part(usize::from(short % 5)).to_vec(),
    }
}

fn list(input: &mut Input) -> Vec<u8> {
    match input.byte() {
        0xf0..=0xff => input.counted().to_vec(),
        0xe8..=0xef => many(input),
        damaged @ 0xe0..=0xe7 => {
            let list = list_of(&keys(input, damaged % 4));
            changed(input, list)
        }
        count => list_of(&keys(input, count % 6)),
    }
}

fn keys(input: &mut Input, count: u8) -> Vec<Vec<u8>> {
    (0..count).map(|_| key(input)).collect()
}

/// A list of numbered keys of one length, to fill a room by a few bytes.
fn many(input: &mut Input) -> Vec<u8> {
    let (count, first, length) = (input.two() % MANY, input.two(), 2 + input.byte() % 64);
    let key = |n: usize| {
        let mut key = vec![b'm'; usize::from(length)];
        key[..2].copy_from_slice(&(n as u16).to_be_bytes());
        key
    };
    list_of(&(first..first + count).map(key).collect::<Vec<_>>())
}

fn bounds(input: &mut Input) -> Vec<u8> {
    match input.byte() {
        0xf0..=0xff => input.counted().to_vec(),
        0xe0..=0xef => {
            let bounds = [bound(input), bound(input)].concat();
            changed(input, bounds)
        }
        _ => [bound(input), bound(input)].concat(),
    }
}

fn bound(input: &mut Input) -> Vec<u8> {
    match input.pick(&[0x10, 0x11, 0x12]) {
        0x10 => field(0x10, &[]),
        tag => field(tag, &key(input)),
    }
}

/// One byte changed, gone or too many.
fn changed(input: &mut Input, mut bytes: Vec<u8>) -> Vec<u8> {
    let (how, at, byte) = (input.byte(), input.two() % (bytes.len() + 1), input.byte());
    match how % 3 {
        0 if at < bytes.len() => bytes[at] = byte,
        1 => bytes.truncate(at),
        _ => bytes.insert(at, byte),
    }
    bytes
}
