use crate::expected::{self, order, test};
use crate::tally::Tally;
use crate::{passed_range, ALPHABET};
use bytes::Bytes;
use differential::inputs::{keys_up_to, ranges_over};
use slatedb_oracle::comparable_range::ComparableProbe;
use std::ops::Bound;
use std::thread;
use stranvek_sys::answers::RawRange;
use stranvek_sys::boundary;

/// A range as it is passed, and as the oracle's over the very same bytes.
struct Subject {
    raw: RawRange<'static>,
    oracle: ComparableProbe<Bytes>,
}

/// Every range of short keys, in memory of its own.
fn subjects() -> Vec<Subject> {
    let lent = |bound| match bound {
        Bound::Included(key) => Bound::Included(Bytes::from_static(key)),
        Bound::Excluded(key) => Bound::Excluded(Bytes::from_static(key)),
        Bound::Unbounded => Bound::Unbounded,
    };
    let subject = |range: (_, _)| Subject {
        raw: passed_range(range),
        oracle: ComparableProbe::new(lent(range.0), lent(range.1)),
    };
    let ranges = ranges_over(&keys_up_to(2, &ALPHABET));
    ranges.into_iter().map(subject).collect()
}

fn compare(firsts: &[Subject], seconds: &[Subject]) -> Tally {
    let mut tally = Tally::default();
    for a in firsts {
        for b in seconds {
            let about = (a.raw, b.raw);
            let (x, y) = (&a.oracle, &b.oracle);
            tally.same(boundary::compare_range(a.raw, b.raw), order(x.compare(y)), &about);
            tally.same(boundary::are_adjacent(a.raw, b.raw), test(x.are_adjacent(y)), &about);
            tally.same(boundary::intersect(a.raw, b.raw), expected::intersect(x, y), &about);
            tally.same(boundary::union(a.raw, b.raw), expected::union(x, y), &about);
        }
    }
    tally
}

#[test]
fn every_pair_of_short_ranges() {
    let (firsts, seconds) = (subjects(), subjects());
    assert_eq!(firsts.len(), 63 * 63);
    let mut tally = Tally::default();
    thread::scope(|scope| {
        let (left, right) = firsts.split_at(firsts.len() / 2);
        let other = scope.spawn(|| compare(left, &seconds));
        tally.add(compare(right, &seconds));
        tally.add(other.join().expect("no difference in the other half"));
    });
    tally.close(63 * 63 * 63 * 63 * 4);
}
