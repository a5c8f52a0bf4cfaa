//! A number for an answer, the same for both sides: it reads the answer, and tells different ones apart.

use std::cmp::Ordering;
use std::ops::Bound;
use stranvek_sys::KeyRange;

pub fn order(order: Ordering) -> u64 {
    (order as i8 + 1) as u64
}

pub fn bound(bound: Bound<&[u8]>) -> u64 {
    match bound {
        Bound::Included(key) => 1 + self::key(key),
        Bound::Excluded(key) => 2 + self::key(key),
        Bound::Unbounded => 0,
    }
}

pub fn range(range: KeyRange) -> u64 {
    bound(range.0).wrapping_add(bound(range.1).wrapping_mul(5))
}

fn key(key: &[u8]) -> u64 {
    let last = key.last().map_or(0, |&byte| u64::from(byte));
    (last * 1024 + key.len() as u64) * 3
}
