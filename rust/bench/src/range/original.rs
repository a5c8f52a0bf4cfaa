//! What the unchanged Rust is asked. What it makes is dropped in its turn.

use super::digest;
use super::inputs::{Key, Range};
use bytes::Bytes;
use slatedb_oracle::bytes_range::{self, BytesProbe};
use slatedb_oracle::comparable_range::ComparableProbe;
use std::cmp::Ordering;
use std::ops::Bound;

pub fn compare((a, b): &(Key, Key)) -> u64 {
    digest::order(a.counted.cmp(b.counted))
}

/// As far away as the port.
pub fn compare_not_inlined(keys: &(Key, Key)) -> u64 {
    #[inline(never)]
    fn order(a: &Bytes, b: &Bytes) -> Ordering {
        a.cmp(b)
    }
    digest::order(order(keys.0.counted, keys.1.counted))
}

pub fn contains((range, key): &(Range, Key)) -> u64 {
    range.made.contains(key.counted).into()
}

pub fn intersect((a, b): &(Range, Range)) -> u64 {
    combined(a.made.intersect(&b.made))
}

pub fn union((a, b): &(Range, Range)) -> u64 {
    combined(a.made.union(&b.made))
}

pub fn intersect_slices((a, b): &(Range, Range)) -> u64 {
    combined(a.made_of_slices.intersect(&b.made_of_slices))
}

pub fn union_slices((a, b): &(Range, Range)) -> u64 {
    combined(a.made_of_slices.union(&b.made_of_slices))
}

pub fn increment_prefix(prefix: &Key) -> u64 {
    let made = bytes_range::increment_prefix(prefix.lent);
    digest::bound(made.as_deref().map_or(Bound::Unbounded, Bound::Excluded))
}

pub fn new_range(range: &Range) -> u64 {
    let (start, end) = &range.counted;
    made(BytesProbe::new(start.clone(), end.clone()))
}

pub fn from_prefix(prefix: &Key) -> u64 {
    made(BytesProbe::from_prefix(prefix.lent))
}

pub fn from_prefix_and_subrange((prefix, subrange): &(Key, Range)) -> u64 {
    let (start, end) = subrange.lent;
    made(BytesProbe::from_prefix_and_subrange(prefix.lent, start, end))
}

fn made(range: BytesProbe) -> u64 {
    digest::range((range.start(), range.end()))
}

fn combined<K: AsRef<[u8]> + Ord + Clone>(range: Option<ComparableProbe<K>>) -> u64 {
    range.map_or(0, |range| 1 + digest::range((slice(range.start()), slice(range.end()))))
}

fn slice<K: AsRef<[u8]>>(bound: Bound<&K>) -> Bound<&[u8]> {
    match bound {
        Bound::Included(key) => Bound::Included(key.as_ref()),
        Bound::Excluded(key) => Bound::Excluded(key.as_ref()),
        Bound::Unbounded => Bound::Unbounded,
    }
}
