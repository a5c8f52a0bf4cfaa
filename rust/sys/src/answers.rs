//! What is passed to the library and what comes back, field for field as the archive lays it out.

use std::ops::Bound;

pub use stranvek::numbers::{EXCLUDED, INCLUDED, KEY_LIMIT, UNBOUNDED};

/// The statuses that the range part answers.
pub use stranvek::numbers::{DONE, EMPTY_RANGE, LONG_KEY};

/// Where a bound of a `Pair` comes from.
pub const FIRST: u8 = 0;
pub const SECOND: u8 = 1;

/// A bound as it is passed: a kind that is none of the three reads as unbounded, whose key is ignored.
#[derive(Clone, Copy, Debug)]
pub struct RawBound<'a> {
    pub kind: u8,
    pub key: &'a [u8],
}

impl<'a> From<Bound<&'a [u8]>> for RawBound<'a> {
    fn from(bound: Bound<&'a [u8]>) -> Self {
        let (kind, key): (u8, &[u8]) = match bound {
            Bound::Included(key) => (INCLUDED, key),
            Bound::Excluded(key) => (EXCLUDED, key),
            Bound::Unbounded => (UNBOUNDED, &[]),
        };
        RawBound { kind, key }
    }
}

impl<'a> From<RawBound<'a>> for Bound<&'a [u8]> {
    fn from(bound: RawBound<'a>) -> Self {
        match bound.kind {
            INCLUDED => Bound::Included(bound.key),
            EXCLUDED => Bound::Excluded(bound.key),
            _ => Bound::Unbounded,
        }
    }
}

/// A range as it is passed.
#[derive(Clone, Copy, Debug)]
pub struct RawRange<'a> {
    pub start: RawBound<'a>,
    pub end: RawBound<'a>,
}

/// -1, 0 or 1.
#[repr(C)]
#[derive(Clone, Copy, Debug, PartialEq, Eq)]
pub struct Compared {
    pub status: u8,
    pub order: i8,
}

#[repr(C)]
#[derive(Clone, Copy, Debug, PartialEq, Eq)]
pub struct Told {
    pub status: u8,
    pub holds: bool,
}

/// Two bounds out of two ranges: each bound's kind, and which range's slice holds its key.
#[repr(C)]
#[derive(Clone, Copy, Debug, PartialEq, Eq)]
pub struct Pair {
    pub status: u8,
    pub given: bool,
    pub start_kind: u8,
    pub start_side: u8,
    pub end_kind: u8,
    pub end_side: u8,
}

/// The kinds of a range that was accepted as it stands.
#[repr(C)]
#[derive(Clone, Copy, Debug, PartialEq, Eq)]
pub struct NewRange {
    pub status: u8,
    pub start_kind: u8,
    pub end_kind: u8,
}

/// A bound whose key was made: `len` bytes, and zeros after them.
#[repr(C)]
#[derive(Clone, Copy, Debug, PartialEq, Eq)]
pub struct Key {
    pub kind: u8,
    pub len: usize,
    pub bytes: [u8; KEY_LIMIT],
}

impl Key {
    pub fn bound(&self) -> Bound<&[u8]> {
        Bound::from(RawBound { kind: self.kind, key: &self.bytes[..self.len] })
    }
}

#[repr(C)]
#[derive(Clone, Copy, Debug, PartialEq, Eq)]
pub struct MadeKey {
    pub status: u8,
    pub key: Key,
}

#[repr(C)]
#[derive(Clone, Copy, Debug, PartialEq, Eq)]
pub struct MadeKeys {
    pub status: u8,
    pub start: Key,
    pub end: Key,
}
