//! The proved range functions, for a host in Rust: on slices and `Bound`s here, number for number in [`boundary`]. The
//! manager's calls on a lent room stand in crate `stranvek`.
//!
//! No function asks anything of its arguments: any bytes and any bounds may be passed.
#![deny(unsafe_code)]

use std::cmp::Ordering;
use std::ops::Bound;

pub mod answers;
pub mod boundary;

use answers::{Key, Pair, RawBound, RawRange, DONE, EMPTY_RANGE, FIRST, LONG_KEY};

/// A start and an end.
pub type KeyRange<'a> = (Bound<&'a [u8]>, Bound<&'a [u8]>);

/// Why a range or a key was not made.
#[derive(Clone, Copy, Debug, PartialEq, Eq)]
pub enum Refused {
    /// Status 4: a key, prefix or joined key over 512 bytes.
    LongKey,
    /// Status 5: a range that is empty by the rule.
    EmptyRange,
}

pub fn compare(a: &[u8], b: &[u8]) -> Ordering {
    boundary::compare(a, b).order.cmp(&0)
}

pub fn equal(a: &[u8], b: &[u8]) -> bool {
    boundary::equal(a, b).holds
}

pub fn starts_with(key: &[u8], prefix: &[u8]) -> bool {
    boundary::starts_with(key, prefix).holds
}

pub fn compare_start(a: Bound<&[u8]>, b: Bound<&[u8]>) -> Ordering {
    boundary::compare_start(a.into(), b.into()).order.cmp(&0)
}

pub fn compare_end(a: Bound<&[u8]>, b: Bound<&[u8]>) -> Ordering {
    boundary::compare_end(a.into(), b.into()).order.cmp(&0)
}

/// By start, and then by end.
pub fn compare_range(a: KeyRange, b: KeyRange) -> Ordering {
    boundary::compare_range(raw(a), raw(b)).order.cmp(&0)
}

/// Whether the range is not empty by the rule; it may still hold no key.
pub fn non_empty(range: KeyRange) -> bool {
    boundary::non_empty(raw(range)).holds
}

pub fn contains(range: KeyRange, key: &[u8]) -> bool {
    boundary::contains(raw(range), key).holds
}

/// Whether the first range's end touches the second's start.
pub fn are_adjacent(a: KeyRange, b: KeyRange) -> bool {
    boundary::are_adjacent(raw(a), raw(b)).holds
}

/// The greater start and the lesser end, each as it was passed, unless they are empty by the rule.
pub fn intersect<'a>(a: KeyRange<'a>, b: KeyRange<'a>) -> Option<KeyRange<'a>> {
    picked(boundary::intersect(raw(a), raw(b)), a, b)
}

/// The lesser start and the greater end, each as it was passed, if the ranges intersect or touch.
pub fn union<'a>(a: KeyRange<'a>, b: KeyRange<'a>) -> Option<KeyRange<'a>> {
    picked(boundary::union(raw(a), raw(b)), a, b)
}

/// The key that a range from it to itself, both included, holds alone.
pub fn as_point(range: KeyRange<'_>) -> Option<&[u8]> {
    match range.0 {
        Bound::Included(key) if boundary::as_point(raw(range)).holds => Some(key),
        _ => None,
    }
}

/// The end of all keys that start with the prefix.
pub fn increment_prefix(prefix: &[u8]) -> Result<Key, Refused> {
    let made = boundary::increment_prefix(prefix);
    accepted(made.status).map(|()| made.key)
}

/// The range itself, if it may be stored.
pub fn new_range(range: KeyRange) -> Result<KeyRange, Refused> {
    accepted(boundary::new_range(raw(range)).status).map(|()| range)
}

/// All keys that start with the prefix.
pub fn from_prefix(prefix: &[u8]) -> Result<(Key, Key), Refused> {
    let made = boundary::from_prefix(prefix);
    accepted(made.status).map(|()| (made.start, made.end))
}

/// All keys that start with the prefix and go on with a suffix in the subrange.
pub fn from_prefix_and_subrange(prefix: &[u8], subrange: KeyRange) -> Result<(Key, Key), Refused> {
    let made = boundary::from_prefix_and_subrange(prefix, raw(subrange));
    accepted(made.status).map(|()| (made.start, made.end))
}

fn raw(range: KeyRange<'_>) -> RawRange<'_> {
    RawRange { start: RawBound::from(range.0), end: RawBound::from(range.1) }
}

fn picked<'a>(pair: Pair, a: KeyRange<'a>, b: KeyRange<'a>) -> Option<KeyRange<'a>> {
    if !pair.given {
        return None;
    }
    let start = if pair.start_side == FIRST { a.0 } else { b.0 };
    let end = if pair.end_side == FIRST { a.1 } else { b.1 };
    Some((start, end))
}

fn accepted(status: u8) -> Result<(), Refused> {
    match status {
        DONE => Ok(()),
        LONG_KEY => Err(Refused::LongKey),
        EMPTY_RANGE => Err(Refused::EmptyRange),
        other => unreachable!("a range function answered status {}", other),
    }
}
