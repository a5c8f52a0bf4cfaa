//! The library's functions, on slices: the one place of unsafe code.
//!
//! One reason makes every call here safe: each pointer goes with the length of the slice that it came from, and that slice
//! is lent through the call. The library reads no other memory (that is proved), writes none but its answer, and keeps nothing.
//! The helpers are private and are handed the archive's functions alone.
#![allow(unsafe_code)]

use crate::answers::{Compared, MadeKey, MadeKeys, NewRange, Pair, RawBound, RawRange, Told};

// A line for each argument of the library's own signature: a slice passes as its pointer and its length.
#[rustfmt::skip]
extern "C" {
    fn stranvek_compare(a: *const u8, a_len: usize, b: *const u8, b_len: usize) -> Compared;
    fn stranvek_equal(a: *const u8, a_len: usize, b: *const u8, b_len: usize) -> Told;
    fn stranvek_starts_with(
        key: *const u8, key_len: usize,
        prefix: *const u8, prefix_len: usize,
    ) -> Told;
    fn stranvek_compare_start(
        a_kind: u8, a_key: *const u8, a_len: usize,
        b_kind: u8, b_key: *const u8, b_len: usize,
    ) -> Compared;
    fn stranvek_compare_end(
        a_kind: u8, a_key: *const u8, a_len: usize,
        b_kind: u8, b_key: *const u8, b_len: usize,
    ) -> Compared;
    fn stranvek_compare_range(
        start_kind: u8, start_key: *const u8, start_len: usize,
        end_kind: u8, end_key: *const u8, end_len: usize,
        other_start_kind: u8, other_start_key: *const u8, other_start_len: usize,
        other_end_kind: u8, other_end_key: *const u8, other_end_len: usize,
    ) -> Compared;
    fn stranvek_non_empty(
        start_kind: u8, start_key: *const u8, start_len: usize,
        end_kind: u8, end_key: *const u8, end_len: usize,
    ) -> Told;
    fn stranvek_contains(
        start_kind: u8, start_key: *const u8, start_len: usize,
        end_kind: u8, end_key: *const u8, end_len: usize,
        key: *const u8, key_len: usize,
    ) -> Told;
    fn stranvek_are_adjacent(
        start_kind: u8, start_key: *const u8, start_len: usize,
        end_kind: u8, end_key: *const u8, end_len: usize,
        other_start_kind: u8, other_start_key: *const u8, other_start_len: usize,
        other_end_kind: u8, other_end_key: *const u8, other_end_len: usize,
    ) -> Told;
    fn stranvek_intersect(
        start_kind: u8, start_key: *const u8, start_len: usize,
        end_kind: u8, end_key: *const u8, end_len: usize,
        other_start_kind: u8, other_start_key: *const u8, other_start_len: usize,
        other_end_kind: u8, other_end_key: *const u8, other_end_len: usize,
    ) -> Pair;
    fn stranvek_union(
        start_kind: u8, start_key: *const u8, start_len: usize,
        end_kind: u8, end_key: *const u8, end_len: usize,
        other_start_kind: u8, other_start_key: *const u8, other_start_len: usize,
        other_end_kind: u8, other_end_key: *const u8, other_end_len: usize,
    ) -> Pair;
    fn stranvek_as_point(
        start_kind: u8, start_key: *const u8, start_len: usize,
        end_kind: u8, end_key: *const u8, end_len: usize,
    ) -> Told;
    fn stranvek_increment_prefix(prefix: *const u8, prefix_len: usize) -> MadeKey;
    fn stranvek_new_range(
        start_kind: u8, start_key: *const u8, start_len: usize,
        end_kind: u8, end_key: *const u8, end_len: usize,
    ) -> NewRange;
    fn stranvek_from_prefix(prefix: *const u8, prefix_len: usize) -> MadeKeys;
    fn stranvek_from_prefix_and_subrange(
        prefix: *const u8, prefix_len: usize,
        start_kind: u8, start_key: *const u8, start_len: usize,
        end_kind: u8, end_key: *const u8, end_len: usize,
    ) -> MadeKeys;
}

type OnKey<A> = unsafe extern "C" fn(*const u8, usize) -> A;
type OnTwoKeys<A> = unsafe extern "C" fn(*const u8, usize, *const u8, usize) -> A;
type OnTwoBounds<A> = unsafe extern "C" fn(u8, *const u8, usize, u8, *const u8, usize) -> A;
#[rustfmt::skip]
type OnTwoRanges<A> = unsafe extern "C" fn(
    u8, *const u8, usize, u8, *const u8, usize,
    u8, *const u8, usize, u8, *const u8, usize,
) -> A;

fn on_key<A>(call: OnKey<A>, key: &[u8]) -> A {
    // SAFETY: the pointer and the length are one lent slice's.
    unsafe { call(key.as_ptr(), key.len()) }
}

fn on_two_keys<A>(call: OnTwoKeys<A>, a: &[u8], b: &[u8]) -> A {
    // SAFETY: each pointer and the length after it are one lent slice's.
    unsafe { call(a.as_ptr(), a.len(), b.as_ptr(), b.len()) }
}

fn on_two_bounds<A>(call: OnTwoBounds<A>, a: RawBound, b: RawBound) -> A {
    // SAFETY: each pointer and the length after it are one lent slice's; a kind may be any number.
    unsafe { call(a.kind, a.key.as_ptr(), a.key.len(), b.kind, b.key.as_ptr(), b.key.len()) }
}

fn on_range<A>(call: OnTwoBounds<A>, range: RawRange) -> A {
    on_two_bounds(call, range.start, range.end)
}

#[rustfmt::skip]
fn on_two_ranges<A>(call: OnTwoRanges<A>, a: RawRange, b: RawRange) -> A {
    // SAFETY: each pointer and the length after it are one lent slice's; a kind may be any number.
    unsafe {
        call(
            a.start.kind, a.start.key.as_ptr(), a.start.key.len(),
            a.end.kind, a.end.key.as_ptr(), a.end.key.len(),
            b.start.kind, b.start.key.as_ptr(), b.start.key.len(),
            b.end.kind, b.end.key.as_ptr(), b.end.key.len(),
        )
    }
}

pub fn compare(a: &[u8], b: &[u8]) -> Compared {
    on_two_keys(stranvek_compare, a, b)
}

pub fn equal(a: &[u8], b: &[u8]) -> Told {
    on_two_keys(stranvek_equal, a, b)
}

pub fn starts_with(key: &[u8], prefix: &[u8]) -> Told {
    on_two_keys(stranvek_starts_with, key, prefix)
}

pub fn compare_start(a: RawBound, b: RawBound) -> Compared {
    on_two_bounds(stranvek_compare_start, a, b)
}

pub fn compare_end(a: RawBound, b: RawBound) -> Compared {
    on_two_bounds(stranvek_compare_end, a, b)
}

pub fn compare_range(a: RawRange, b: RawRange) -> Compared {
    on_two_ranges(stranvek_compare_range, a, b)
}

pub fn non_empty(range: RawRange) -> Told {
    on_range(stranvek_non_empty, range)
}

#[rustfmt::skip]
pub fn contains(range: RawRange, key: &[u8]) -> Told {
    let (start, end) = (range.start, range.end);
    // SAFETY: each pointer and the length after it are one lent slice's; a kind may be any number.
    unsafe {
        stranvek_contains(
            start.kind, start.key.as_ptr(), start.key.len(),
            end.kind, end.key.as_ptr(), end.key.len(),
            key.as_ptr(), key.len(),
        )
    }
}

/// Whether the first range's end touches the second's start.
pub fn are_adjacent(a: RawRange, b: RawRange) -> Told {
    on_two_ranges(stranvek_are_adjacent, a, b)
}

pub fn intersect(a: RawRange, b: RawRange) -> Pair {
    on_two_ranges(stranvek_intersect, a, b)
}

pub fn union(a: RawRange, b: RawRange) -> Pair {
    on_two_ranges(stranvek_union, a, b)
}

/// Where it holds, the point is the start's key.
pub fn as_point(range: RawRange) -> Told {
    on_range(stranvek_as_point, range)
}

pub fn increment_prefix(prefix: &[u8]) -> MadeKey {
    on_key(stranvek_increment_prefix, prefix)
}

pub fn new_range(range: RawRange) -> NewRange {
    on_range(stranvek_new_range, range)
}

pub fn from_prefix(prefix: &[u8]) -> MadeKeys {
    on_key(stranvek_from_prefix, prefix)
}

#[rustfmt::skip]
pub fn from_prefix_and_subrange(prefix: &[u8], subrange: RawRange) -> MadeKeys {
    let (start, end) = (subrange.start, subrange.end);
    // SAFETY: each pointer and the length after it are one lent slice's; a kind may be any number.
    unsafe {
        stranvek_from_prefix_and_subrange(
            prefix.as_ptr(), prefix.len(),
            start.kind, start.key.as_ptr(), start.key.len(),
            end.kind, end.key.as_ptr(), end.key.len(),
        )
    }
}
