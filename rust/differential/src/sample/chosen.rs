//! What is asked.

use super::Sample;
use crate::inputs::{bounds_over, keys_up_to, ranges_over};
use crate::limited::KEY_LIMIT;
use crate::random::Random;
use std::ops::Bound::{Excluded, Included, Unbounded};

const FRONTS: [&[u8]; 3] = [b"", b"a", b"a\0"];

/// Every op on short keys, all kinds against all kinds.
pub fn short(sample: &mut Sample) {
    keys_and_bounds(sample);
    ranges(sample);
    pairs_of_ranges(sample);
    prefixes(sample);
}

fn keys_and_bounds(sample: &mut Sample) {
    let keys: [&[u8]; 8] = [b"", b"\0", b"a", b"a\0", b"a\xff", b"b", b"\xff", b"\xff\xff"];
    for a in keys {
        for b in keys {
            sample.keys(a, b);
        }
    }
    for a in bounds_over(&FRONTS) {
        for b in bounds_over(&FRONTS) {
            sample.bounds(a, b);
        }
    }
}

fn ranges(sample: &mut Sample) {
    for range in ranges_over(&[b"", b"a", b"a\0", b"b"]) {
        sample.range(range);
    }
    for range in ranges_over(&FRONTS) {
        for key in [b"".as_ref(), b"\0", b"a", b"a\0", b"b"] {
            sample.key_in_range(range, key);
        }
    }
}

fn pairs_of_ranges(sample: &mut Sample) {
    let at_one_key = ranges_over(&[b"a"]);
    for &a in &at_one_key {
        for &b in &at_one_key {
            sample.ranges(a, b);
        }
    }
    let some = ranges_over(&[b"", b"a", b"a\0", b"aa", b"b"]);
    let mut random = Random::seeded(4);
    for _ in 0..48 {
        sample.ranges(random.pick(&some), random.pick(&some));
    }
    let first = (Included(b"a".as_ref()), Included(b"b".as_ref()));
    sample.ranges(first, (Excluded(b"b"), Excluded(b"c")));
    sample.ranges(first, (Included(b"b\0"), Excluded(b"c")));
}

fn prefixes(sample: &mut Sample) {
    for prefix in keys_up_to(3, b"a\xff") {
        sample.prefix(prefix);
    }
    for prefix in [b"\0".as_ref(), b"\0\xff", b"\xfe", b"\xfe\xff", b"a\0"] {
        sample.prefix(prefix);
    }
    for prefix in [b"".as_ref(), b"a", b"\xff", b"a\xff", b"\xff\xff"] {
        for subrange in ranges_over(&[b"", b"a"]) {
            sample.subrange(prefix, subrange);
        }
    }
}

/// Keys of 511, 512 and 513 bytes.
pub fn long(sample: &mut Sample) {
    let short: &[u8] = &[0x61; KEY_LIMIT - 1];
    let full: &[u8] = &[0x61; KEY_LIMIT];
    let over: &[u8] = &[0x61; KEY_LIMIT + 1];
    let mut parted = [0x61; KEY_LIMIT + 1];
    parted[KEY_LIMIT] = 0x62;
    for (a, b) in [(full, full), (full, short), (over, &parted[..])] {
        sample.keys(a, b);
    }
    sample.bounds(Excluded(over), Included(over));
    sample.ranges((Unbounded, Included(&parted)), (Excluded(over), Unbounded));
    sample.key_in_range((Included(full), Excluded(b"b")), over);
    // Done at the limit, too long beyond it (before empty), empty.
    sample.range((Included(full), Included(full)));
    sample.range((Included(over), Unbounded));
    sample.range((Excluded(b"b"), Excluded(over)));
    sample.range((Excluded(full), Excluded(short)));
    let all_ff = [0xff; KEY_LIMIT + 1];
    let mut ending_in_ff = [0xff; KEY_LIMIT];
    ending_in_ff[0] = 0x61;
    for prefix in [short, full, over, &ending_in_ff, &all_ff[..KEY_LIMIT], &all_ff] {
        sample.prefix(prefix);
    }
    let (front, back) = full.split_at(KEY_LIMIT - 2);
    sample.subrange(front, (Included(b"a"), Excluded(b"b")));
    sample.subrange(front, (Included(back), Unbounded));
    sample.subrange(front, (Unbounded, Included(b"aaa")));
    sample.subrange(back, (Excluded(front), Unbounded));
    sample.subrange(back, (Excluded(short), Excluded(b"")));
    sample.subrange(full, (Included(b""), Included(b"")));
    sample.subrange(full, (Excluded(b""), Excluded(b"")));
    sample.subrange(full, (Included(b"a"), Excluded(b"")));
    sample.subrange(over, (Unbounded, Unbounded));
}
