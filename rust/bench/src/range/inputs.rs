//! The inputs, in the form of each side over the same memory.

use bytes::Bytes;
use differential::random::Random;
use slatedb_oracle::comparable_range::ComparableProbe;
use std::ops::Bound;
use stranvek_sys::KeyRange;

const COUNT: usize = 256;

/// The original holds counted bytes, the port is lent the slice.
#[derive(Clone, Copy)]
pub struct Key {
    pub counted: &'static Bytes,
    pub lent: &'static [u8],
}

pub struct Range {
    pub counted: (Bound<Bytes>, Bound<Bytes>),
    pub made: ComparableProbe<Bytes>,
    pub made_of_slices: ComparableProbe<&'static [u8]>,
    pub lent: KeyRange<'static>,
}

/// As many inputs as a pass asks.
pub fn many<I>(mut draw: impl FnMut() -> I) -> Vec<I> {
    (0..COUNT).map(|_| draw()).collect()
}

pub fn a_key(random: &mut Random, length: usize) -> Key {
    key(&random.bytes(length))
}

/// A prefix whose increment is far from its end.
pub fn carried(random: &mut Random, length: usize, carry: usize) -> Key {
    key(&[random.bytes(length), vec![0xff; carry]].concat())
}

pub fn two_keys(random: &mut Random, shared: usize, own: usize) -> (Key, Key) {
    let [a, b] = keys(random, shared, own);
    (a, b)
}

/// Two keys that differ in the last byte alone.
pub fn last_differs(random: &mut Random, length: usize) -> (Key, Key) {
    let mut bytes = random.bytes(length);
    let first = key(&bytes);
    bytes[length - 1] ^= 1;
    (first, key(&bytes))
}

pub fn a_range(random: &mut Random, shared: usize, own: usize) -> Range {
    let [a, b] = keys(random, shared, own);
    range(random, a, b)
}

pub fn range_and_key(random: &mut Random, shared: usize, own: usize) -> (Range, Key) {
    let [a, b, asked] = keys(random, shared, own);
    (range(random, a, b), asked)
}

pub fn two_ranges(random: &mut Random, shared: usize, own: usize) -> (Range, Range) {
    let [a, b, c, d] = keys(random, shared, own);
    (range(random, a, b), range(random, c, d))
}

/// Keys that begin with the same bytes, each going on with its own.
fn keys<const N: usize>(random: &mut Random, shared: usize, own: usize) -> [Key; N] {
    let front = random.bytes(shared);
    [(); N].map(|()| key(&[&front[..], &random.bytes(own)].concat()))
}

fn key(bytes: &[u8]) -> Key {
    let counted: &'static Bytes = Box::leak(Box::new(Bytes::copy_from_slice(bytes)));
    Key { counted, lent: counted }
}

/// The lesser key first, each bound of any kind.
fn range(random: &mut Random, a: Key, b: Key) -> Range {
    let (start, end) = if a.lent <= b.lent { (a, b) } else { (b, a) };
    let (start, lent_start) = bound(random, start);
    let (end, lent_end) = bound(random, end);
    Range {
        made: ComparableProbe::new(start.clone(), end.clone()),
        made_of_slices: ComparableProbe::new(lent_start, lent_end),
        counted: (start, end),
        lent: (lent_start, lent_end),
    }
}

fn bound(random: &mut Random, key: Key) -> (Bound<Bytes>, Bound<&'static [u8]>) {
    match random.below(3) {
        0 => (Bound::Unbounded, Bound::Unbounded),
        1 => (Bound::Included(key.counted.clone()), Bound::Included(key.lent)),
        _ => (Bound::Excluded(key.counted.clone()), Bound::Excluded(key.lent)),
    }
}
