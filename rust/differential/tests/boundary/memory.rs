//! The incident's shape: no answer may rest on a byte outside the slices that are passed.

use crate::guarded::{guarded, Against, PAGE};
use crate::question::{Answers, Question};
use crate::tally::Tally;
use differential::random::Random;
use std::slice;
use stranvek_sys::answers::{RawBound, RawRange, EXCLUDED, INCLUDED, UNBOUNDED};

/// The keys of a question: a start and an end for each range, the key and the prefix.
type Keys<'a> = [&'a [u8]; 6];

fn question(keys: Keys<'_>, kinds: [u8; 4]) -> Question<'_> {
    let bound = |at: usize| RawBound { kind: kinds[at], key: keys[at] };
    let range = |at| RawRange { start: bound(at), end: bound(at + 1) };
    Question { first: range(0), second: range(2), key: keys[4], prefix: keys[5] }
}

/// Asks about the keys with every four kinds.
fn ask(tally: &mut Tally, keys: Keys) {
    let kinds = [UNBOUNDED, INCLUDED, EXCLUDED];
    for n in 0..ALL_KINDS {
        let four = [kinds[n / 27], kinds[n / 9 % 3], kinds[n / 3 % 3], kinds[n % 3]];
        let question = question(keys, four);
        question.same(tally, &question.library(), &question.oracle());
    }
}

const ALL_KINDS: usize = 3 * 3 * 3 * 3;

/// Lengths around those that a machine reads at once, around the limit and around a page.
const LENGTHS: [usize; 24] = [
    0, 1, 2, 3, 4, 7, 8, 9, 15, 16, 17, 31, 32, 33, 63, 64, 65, 128, 511, 512, 513, 4095, 4096,
    4097,
];

/// More than a made key has room for.
const MARGIN: usize = 600;

const FILLS: [u8; 3] = [0x00, 0x61, 0xff];

/// For each length and fill six keys: equal ones, and some that part from them at an end or are one byte shorter or longer.
fn sixes() -> Vec<[Vec<u8>; 6]> {
    let mut random = Random::seeded(3);
    let mut key = |length: usize, fill: u8| {
        let mut key = vec![fill; length];
        match random.below(6) {
            0 => key.push(fill),
            1 => key.truncate(length.saturating_sub(1)),
            2 if length > 0 => key[length - 1] = random.byte(),
            3 if length > 0 => key[0] = random.byte(),
            _ => {}
        }
        key
    };
    let mut sixes = Vec::new();
    for length in LENGTHS {
        for fill in FILLS {
            sixes.push([(); 6].map(|()| key(length, fill)));
        }
    }
    sixes
}

#[test]
fn keys_beside_pages_that_may_not_be_touched() {
    let mut tally = Tally::default();
    let sixes = sixes();
    for keys in &sixes {
        for against in [Against::Start, Against::End] {
            ask(&mut tally, [0, 1, 2, 3, 4, 5].map(|at| &*guarded(&keys[at], against)));
        }
    }
    tally.close(sixes.len() * 2 * ALL_KINDS * Answers::COUNT);
}

#[test]
fn what_lies_around_the_keys_changes_nothing() {
    let mut tally = Tally::default();
    let sixes = sixes();
    for keys in &sixes {
        for around in FILLS {
            let margin = [around; MARGIN];
            let wide = [0, 1, 2, 3, 4, 5].map(|at| [&margin[..], &keys[at], &margin].concat());
            ask(
                &mut tally,
                [0, 1, 2, 3, 4, 5].map(|at| &wide[at][MARGIN..MARGIN + keys[at].len()]),
            );
        }
    }
    tally.close(sixes.len() * FILLS.len() * ALL_KINDS * Answers::COUNT);
}

#[test]
fn empty_keys_that_point_nowhere() {
    let mut tally = Tally::default();
    for address in [1, PAGE, usize::MAX] {
        // SAFETY: a slice of no bytes may point anywhere but to null.
        let nowhere = unsafe { slice::from_raw_parts(address as *const u8, 0) };
        for others in [nowhere, b"a", b"\xff"] {
            ask(&mut tally, [nowhere; 6]);
            ask(&mut tally, [nowhere, others, others, nowhere, nowhere, others]);
            ask(&mut tally, [others, nowhere, nowhere, others, others, nowhere]);
        }
    }
    tally.close(3 * 3 * 3 * ALL_KINDS * Answers::COUNT);
}
