use crate::expected::{self, order, probe, test};
use crate::tally::Tally;
use crate::{passed_range, ALPHABET};
use differential::inputs::{keys_up_to, ranges_over};
use differential::limited::{owned, EMPTY_RANGE};
use slatedb_oracle::bytes_range::BytesProbe;
use slatedb_oracle::comparable_range::ComparableProbe;
use stranvek_sys::answers::{RawBound, RawRange, DONE};
use stranvek_sys::boundary;

/// Two bounds, taken as two starts, as two ends and as a range.
fn two_bounds(tally: &mut Tally, range: RawRange) {
    let RawRange { start, end } = range;
    let (a, b) = (start.into(), end.into());
    let (x, y) = (ComparableProbe::new(a, a), ComparableProbe::new(b, b));
    tally.same(boundary::compare_start(start, end), order(x.compare_start(&y)), &range);
    tally.same(boundary::compare_end(start, end), order(x.compare_end(&y)), &range);
    tally.same(boundary::non_empty(range), test(probe(range).non_empty()), &range);
    tally.same(boundary::as_point(range), expected::as_point(range), &range);
    tally.same(boundary::new_range(range), expected::new_range(range), &range);
}

#[test]
fn every_pair_of_short_bounds() {
    let ranges = ranges_over(&keys_up_to(2, &ALPHABET));
    assert_eq!(ranges.len(), 63 * 63);
    let mut tally = Tally::default();
    for &range in &ranges {
        two_bounds(&mut tally, passed_range(range));
    }
    tally.close(63 * 63 * 5);
}

#[test]
fn a_range_is_refused_exactly_where_try_new_gives_none() {
    let mut tally = Tally::default();
    for range in ranges_over(&keys_up_to(2, &ALPHABET)) {
        let status = boundary::new_range(passed_range(range)).status;
        let made = BytesProbe::try_new(owned(range.0), owned(range.1)).is_some();
        tally.same(status, if made { DONE } else { EMPTY_RANGE }, &range);
    }
    tally.close(63 * 63);
}

#[test]
fn every_short_key_in_every_short_range() {
    let keys = keys_up_to(2, &ALPHABET);
    let mut tally = Tally::default();
    for range in ranges_over(&keys) {
        let range = passed_range(range);
        for &key in &keys {
            let theirs = expected::contains(range, key);
            tally.same(boundary::contains(range, key), theirs, &(range, key));
        }
    }
    tally.close(63 * 63 * 31);
}

#[test]
fn every_number_as_a_kind() {
    let keys: [(&[u8], &[u8]); 3] = [(b"a", b"a"), (b"a", b"b"), (b"b", b"a")];
    let mut tally = Tally::default();
    for start_kind in 0..=255 {
        for end_kind in 0..=255 {
            for (start_key, end_key) in keys {
                let start = RawBound { kind: start_kind, key: start_key };
                let end = RawBound { kind: end_kind, key: end_key };
                two_bounds(&mut tally, RawRange { start, end });
            }
        }
    }
    tally.close(256 * 256 * 3 * 5);
}
