//! The library, called through its boundary, against the unchanged Rust: every answer, field for field.

#[path = "../shared/guarded.rs"]
mod guarded;

mod expected;
mod question;
mod tally;

mod bounds;
mod keys;
mod long;
mod memory;
mod pairs;
mod prefixes;
mod stack;
mod wrappers;

use differential::inputs::KeyRange;
use std::ops::Bound;
use stranvek_sys::answers::{RawBound, RawRange};

/// The bytes of the exhaustive tests: the two least, a plain one and the two greatest.
const ALPHABET: [u8; 5] = [0x00, 0x01, 0x61, 0xfe, 0xff];

/// Beside an unbounded bound stands a key that must be ignored.
const IGNORED: &[u8] = &[0x61];

fn passed(bound: Bound<&[u8]>) -> RawBound<'_> {
    let raw = RawBound::from(bound);
    match bound {
        Bound::Unbounded => RawBound { key: IGNORED, ..raw },
        _ => raw,
    }
}

fn passed_range(range: KeyRange<'_>) -> RawRange<'_> {
    RawRange { start: passed(range.0), end: passed(range.1) }
}
