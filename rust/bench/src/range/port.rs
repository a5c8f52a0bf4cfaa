//! What the proved archive is asked, through the wrappers that a host in Rust calls.

use super::digest;
use super::inputs::{Key, Range};
use stranvek_sys::{answers, boundary, KeyRange, Refused};

pub fn compare((a, b): &(Key, Key)) -> u64 {
    digest::order(stranvek_sys::compare(a.lent, b.lent))
}

pub fn contains((range, key): &(Range, Key)) -> u64 {
    stranvek_sys::contains(range.lent, key.lent).into()
}

pub fn intersect((a, b): &(Range, Range)) -> u64 {
    combined(stranvek_sys::intersect(a.lent, b.lent))
}

pub fn union((a, b): &(Range, Range)) -> u64 {
    combined(stranvek_sys::union(a.lent, b.lent))
}

pub fn increment_prefix(prefix: &Key) -> u64 {
    match stranvek_sys::increment_prefix(prefix.lent) {
        Ok(key) => digest::bound(key.bound()),
        Err(refused) => unreachable!("{:?}", refused),
    }
}

pub fn new_range(range: &Range) -> u64 {
    match stranvek_sys::new_range(range.lent) {
        Ok(range) => digest::range(range),
        Err(refused) => unreachable!("{:?}", refused),
    }
}

pub fn from_prefix(prefix: &Key) -> u64 {
    made(stranvek_sys::from_prefix(prefix.lent))
}

pub fn from_prefix_and_subrange((prefix, subrange): &(Key, Range)) -> u64 {
    made(stranvek_sys::from_prefix_and_subrange(prefix.lent, subrange.lent))
}

/// Without the wrapper's move of the answer out of its struct.
pub fn increment_prefix_in_place(prefix: &Key) -> u64 {
    digest::bound(boundary::increment_prefix(prefix.lent).key.bound())
}

pub fn from_prefix_in_place(prefix: &Key) -> u64 {
    let made = boundary::from_prefix(prefix.lent);
    digest::range((made.start.bound(), made.end.bound()))
}

fn made(range: Result<(answers::Key, answers::Key), Refused>) -> u64 {
    match range {
        Ok((start, end)) => digest::range((start.bound(), end.bound())),
        Err(refused) => unreachable!("{:?}", refused),
    }
}

fn combined(range: Option<KeyRange>) -> u64 {
    range.map_or(0, |range| 1 + digest::range(range))
}
