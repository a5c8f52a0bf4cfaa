use crate::expected;
use crate::passed_range;
use crate::tally::Tally;
use differential::inputs::{keys_up_to, ranges_over};
use stranvek_sys::boundary;

/// The least byte, a plain one and the one that has no increment.
const LETTERS: [u8; 3] = [0x00, 0x61, 0xff];

#[test]
fn every_short_prefix() {
    let mut tally = Tally::default();
    for prefix in keys_up_to(4, &LETTERS) {
        let made = boundary::increment_prefix(prefix);
        tally.same(made, expected::increment_prefix(prefix), &prefix);
        let made = boundary::from_prefix(prefix);
        tally.same(made, expected::from_prefix(prefix), &prefix);
    }
    tally.close(121 * 2);
}

#[test]
fn every_short_prefix_with_every_short_subrange() {
    let subranges = ranges_over(&keys_up_to(2, &LETTERS));
    assert_eq!(subranges.len(), 27 * 27);
    let mut tally = Tally::default();
    for prefix in keys_up_to(4, &LETTERS) {
        for &subrange in &subranges {
            let subrange = passed_range(subrange);
            let made = boundary::from_prefix_and_subrange(prefix, subrange);
            let theirs = expected::from_prefix_and_subrange(prefix, subrange);
            tally.same(made, theirs, &(prefix, subrange));
        }
    }
    tally.close(121 * 27 * 27);
}
