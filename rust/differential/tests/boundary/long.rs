use crate::question::{Answers, Question};
use crate::tally::Tally;
use differential::emulated::draws;
use differential::random::Random;
use std::thread;
use stranvek_sys::answers::{RawBound, RawRange, DONE, EMPTY_RANGE, KEY_LIMIT, LONG_KEY};
use stranvek_sys::answers::{EXCLUDED, INCLUDED, UNBOUNDED};

const QUESTIONS: usize = 1_000_000;

/// The keys of one question.
struct Keys {
    bounds: [Vec<u8>; 4],
    key: Vec<u8>,
    prefix: Vec<u8>,
}

/// A length at the limit, one to its side, or, now and then, another.
fn length(random: &mut Random) -> usize {
    match random.below(16) {
        0 => random.below(4),
        1 => random.below(2 * KEY_LIMIT),
        _ => KEY_LIMIT - 1 + random.below(3),
    }
}

/// The same key, or one that parts from it at the end or at one byte.
fn varied(random: &mut Random, key: &[u8]) -> Vec<u8> {
    let mut other = key.to_vec();
    match random.below(8) {
        0 => other.push(random.pick(&[0x00, 0x61, 0xff])),
        1 => {
            other.pop();
        }
        2 => other.truncate(random.below(key.len() + 1)),
        3..=5 if !key.is_empty() => {
            let at = match random.below(3) {
                0 => key.len() - 1,
                _ => random.below(key.len()),
            };
            other[at] = other[at].wrapping_add(random.pick(&[1, 0x80, 0xff]));
        }
        _ => {}
    }
    other
}

/// All six keys are variations of one.
fn alike(random: &mut Random) -> Keys {
    let length = length(random);
    let base = random.bytes(length);
    Keys {
        bounds: [(); 4].map(|()| varied(random, &base)),
        key: varied(random, &base),
        prefix: varied(random, &base),
    }
}

/// A prefix that ends in a run of ff, at times all of it.
fn ending_in_ff(random: &mut Random) -> Keys {
    let mut keys = alike(random);
    let length = keys.prefix.len();
    let run = match random.below(4) {
        0 => length,
        1 => length.saturating_sub(1),
        _ => random.below(length + 1),
    };
    keys.prefix[length - run..].fill(0xff);
    keys.key = varied(random, &keys.prefix);
    keys
}

/// A prefix and suffixes that are at the limit once they are joined, or far beyond it.
fn joined(random: &mut Random) -> Keys {
    let front = random.pick(&[0, 1, 2, 255, 256, 510, 511, 512]);
    let room = KEY_LIMIT - front;
    let suffix = match random.below(64) {
        0 => 100_000,
        1..=8 => random.below(room + 1),
        n => (room + n % 3).saturating_sub(1),
    };
    let prefix = match random.below(3) {
        0 => vec![0xff; front],
        _ => random.bytes(front),
    };
    let base = random.bytes(suffix);
    let key = varied(random, &[&prefix[..], &base].concat());
    Keys { bounds: [(); 4].map(|()| varied(random, &base)), key, prefix }
}

/// One of the three kinds, or any number.
fn kind(random: &mut Random) -> u8 {
    match random.below(12) {
        0 => UNBOUNDED,
        1 => random.byte(),
        _ => random.pick(&[INCLUDED, EXCLUDED]),
    }
}

fn range<'a>(random: &mut Random, start: &'a [u8], end: &'a [u8]) -> RawRange<'a> {
    let mut bound = |key| RawBound { kind: kind(random), key };
    RawRange { start: bound(start), end: bound(end) }
}

/// How often making a range ended with each status: done, key too long, empty.
#[derive(Default)]
struct Statuses {
    new_range: [usize; 3],
    joined: [usize; 3],
}

fn place(status: u8) -> usize {
    match status {
        DONE => 0,
        LONG_KEY => 1,
        EMPTY_RANGE => 2,
        other => panic!("status {}", other),
    }
}

fn ask(seed: u64, questions: usize) -> (Tally, Statuses) {
    let mut random = Random::seeded(seed);
    let mut tally = Tally::default();
    let mut statuses = Statuses::default();
    for n in 0..questions {
        let keys = match n % 4 {
            0 | 1 => alike(&mut random),
            2 => ending_in_ff(&mut random),
            _ => joined(&mut random),
        };
        let [a, b, c, d] = &keys.bounds;
        let question = Question {
            first: range(&mut random, a, b),
            second: range(&mut random, c, d),
            key: &keys.key,
            prefix: &keys.prefix,
        };
        let answers = question.library();
        statuses.new_range[place(answers.new_range.status)] += 1;
        statuses.joined[place(answers.from_prefix_and_subrange.status)] += 1;
        question.same(&mut tally, &answers, &question.oracle());
    }
    (tally, statuses)
}

#[test]
fn random_keys_at_the_limit() {
    let half = draws(QUESTIONS) / 2;
    let mut tally = Tally::default();
    thread::scope(|scope| {
        let other = scope.spawn(|| ask(1, half));
        for (counted, statuses) in [ask(2, half), other.join().expect("no difference")] {
            tally.add(counted);
            println!("new_range {:?}, joined {:?}", statuses.new_range, statuses.joined);
            // A draw without many of each status would leave the order of the refusals untried.
            assert!(statuses.new_range.iter().all(|&met| met > 1_000));
            assert!(statuses.joined.iter().all(|&met| met > 1_000));
        }
    });
    tally.close(2 * half * Answers::COUNT);
}
