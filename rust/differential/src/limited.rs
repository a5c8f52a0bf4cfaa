//! The unchanged Rust where it makes ranges and keys, under the limit that document 01 adds and the Rust does not have: a key,
//! prefix or joined key over 512 bytes is status 4. That comes before status 5, which is given exactly where the Rust panics.
// An older clippy says this of the thread-local cell below.
#![allow(clippy::declare_interior_mutable_const)]

use bytes::Bytes;
use slatedb_oracle::bytes_range::{self, BytesProbe};
use std::cell::Cell;
use std::ops::Bound;
use std::panic::{self, AssertUnwindSafe};
use std::sync::Once;

pub const KEY_LIMIT: usize = 512;
pub const LONG_KEY: u8 = 4;
pub const EMPTY_RANGE: u8 = 5;

/// What the Rust made, or the status of the refusal.
pub type Outcome<T> = Result<T, u8>;

pub fn new_range(start: Bound<&[u8]>, end: Bound<&[u8]>) -> Outcome<BytesProbe> {
    within_limit(0, &[start, end])?;
    unless_empty(|| BytesProbe::new(owned(start), owned(end)))
}

pub fn increment_prefix(prefix: &[u8]) -> Outcome<Option<Bytes>> {
    within_limit(prefix.len(), &[])?;
    Ok(bytes_range::increment_prefix(prefix))
}

pub fn from_prefix(prefix: &[u8]) -> Outcome<BytesProbe> {
    within_limit(prefix.len(), &[])?;
    unless_empty(|| BytesProbe::from_prefix(prefix))
}

pub fn from_prefix_and_subrange(
    prefix: &[u8],
    start: Bound<&[u8]>,
    end: Bound<&[u8]>,
) -> Outcome<BytesProbe> {
    within_limit(prefix.len(), &[start, end])?;
    unless_empty(|| BytesProbe::from_prefix_and_subrange(prefix, start, end))
}

pub fn owned(bound: Bound<&[u8]>) -> Bound<Bytes> {
    match bound {
        Bound::Included(key) => Bound::Included(Bytes::copy_from_slice(key)),
        Bound::Excluded(key) => Bound::Excluded(Bytes::copy_from_slice(key)),
        Bound::Unbounded => Bound::Unbounded,
    }
}

/// Whether what stands in front, alone and joined with each bound's key, keeps the limit.
fn within_limit(front: usize, bounds: &[Bound<&[u8]>]) -> Outcome<()> {
    let joined = |bound: &Bound<&[u8]>| match bound {
        Bound::Included(key) | Bound::Excluded(key) => front + key.len(),
        Bound::Unbounded => front,
    };
    if front > KEY_LIMIT || bounds.iter().any(|bound| joined(bound) > KEY_LIMIT) {
        return Err(LONG_KEY);
    }
    Ok(())
}

thread_local! {
    static EXPECTED: Cell<bool> = const { Cell::new(false) };
}

/// What is made, or status 5 where the Rust panics because the range is empty; that panic prints nothing.
fn unless_empty<T>(make: impl FnOnce() -> T) -> Outcome<T> {
    static QUIET: Once = Once::new();
    QUIET.call_once(|| {
        let loud = panic::take_hook();
        panic::set_hook(Box::new(move |panicked| {
            if !EXPECTED.with(Cell::get) {
                loud(panicked);
            }
        }));
    });
    EXPECTED.with(|expected| expected.set(true));
    let made = panic::catch_unwind(AssertUnwindSafe(make));
    EXPECTED.with(|expected| expected.set(false));
    made.map_err(|panicked| match panicked.downcast_ref::<&str>() {
        Some(&"Range must be non-empty") => EMPTY_RANGE,
        _ => panic::resume_unwind(panicked),
    })
}
