//! The table of cases: a call, its inputs in words, its inputs, and the function of each side.

use super::inputs::{
    a_key, a_range, carried, last_differs, many, range_and_key, two_keys, two_ranges,
};
use super::{original, port};
use crate::turns::{asking, Case};
use differential::random::Random;

const SHORT: &str = "16 random bytes";
const SHORT_NOT_INLINED: &str = "16 random bytes, the original not inlined";
const SHORT_SLICES: &str = "16 random bytes, the original on slices too";
const SHORT_IN_PLACE: &str = "16 random bytes, the port's answer read in place";
const SHARED: &str = "40 bytes, 32 of them shared";
const LONG: &str = "512 bytes, the last differs";
const CARRIED: &str = "16 random bytes, then 16 of ff";
const LONG_PREFIX: &str = "400 random bytes";
const SUFFIXES: &str = "prefix and suffixes of 16 random bytes";

/// A side may keep a state of its own.
fn case<I: 'static>(
    call: &'static str,
    words: &'static str,
    inputs: Vec<I>,
    original: impl FnMut(&I) -> u64 + 'static,
    port: impl FnMut(&I) -> u64 + 'static,
) -> Case {
    let inputs: &'static [I] = inputs.leak();
    Case::new(call, words, vec![asking(inputs, port), asking(inputs, original)])
}

#[rustfmt::skip]
pub fn range_part(r: &mut Random) -> Vec<Case> {
    vec![
        case("compare", SHORT, many(|| two_keys(r, 0, 16)), original::compare, port::compare),
        case("compare", SHORT_NOT_INLINED, many(|| two_keys(r, 0, 16)), original::compare_not_inlined, port::compare),
        case("compare", SHARED, many(|| two_keys(r, 32, 8)), original::compare, port::compare),
        case("compare", LONG, many(|| last_differs(r, 512)), original::compare, port::compare),
        case("contains", SHORT, many(|| range_and_key(r, 0, 16)), original::contains, port::contains),
        case("contains", SHARED, many(|| range_and_key(r, 32, 8)), original::contains, port::contains),
        case("intersect", SHORT, many(|| two_ranges(r, 0, 16)), original::intersect, port::intersect),
        case("intersect", SHORT_SLICES, many(|| two_ranges(r, 0, 16)), original::intersect_slices, port::intersect),
        case("intersect", SHARED, many(|| two_ranges(r, 32, 8)), original::intersect, port::intersect),
        case("union", SHORT, many(|| two_ranges(r, 0, 16)), original::union, port::union),
        case("union", SHORT_SLICES, many(|| two_ranges(r, 0, 16)), original::union_slices, port::union),
        case("union", SHARED, many(|| two_ranges(r, 32, 8)), original::union, port::union),
        case("new_range", SHORT, many(|| a_range(r, 0, 16)), original::new_range, port::new_range),
        case("new_range", SHARED, many(|| a_range(r, 32, 8)), original::new_range, port::new_range),
        case("increment_prefix", SHORT, many(|| a_key(r, 16)), original::increment_prefix, port::increment_prefix),
        case("increment_prefix", SHORT_IN_PLACE, many(|| a_key(r, 16)), original::increment_prefix, port::increment_prefix_in_place),
        case("increment_prefix", CARRIED, many(|| carried(r, 16, 16)), original::increment_prefix, port::increment_prefix),
        case("increment_prefix", LONG_PREFIX, many(|| a_key(r, 400)), original::increment_prefix, port::increment_prefix),
        case("from_prefix", SHORT, many(|| a_key(r, 16)), original::from_prefix, port::from_prefix),
        case("from_prefix", SHORT_IN_PLACE, many(|| a_key(r, 16)), original::from_prefix, port::from_prefix_in_place),
        case("from_prefix", LONG_PREFIX, many(|| a_key(r, 400)), original::from_prefix, port::from_prefix),
        case("from_prefix_and_subrange", SUFFIXES, many(|| (a_key(r, 16), a_range(r, 0, 16))), original::from_prefix_and_subrange, port::from_prefix_and_subrange),
    ]
}
