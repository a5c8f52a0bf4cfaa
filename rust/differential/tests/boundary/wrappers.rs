//! The safe wrappers read the boundary's answers rightly.

use crate::tally::Tally;
use differential::inputs::{keys_up_to, ranges_over, KeyRange};
use differential::limited::{self, owned, Outcome};
use slatedb_oracle::bytes_range::BytesProbe;
use slatedb_oracle::comparable_range::ComparableProbe;
use std::ops::Bound;
use stranvek_sys::answers::{Key, EMPTY_RANGE, KEY_LIMIT, LONG_KEY};
use stranvek_sys::Refused;

/// A range whose keys have moved out of the slices that they came in.
type Owned = (Bound<Vec<u8>>, Bound<Vec<u8>>);

fn copied<K: AsRef<[u8]>>(bound: Bound<K>) -> Bound<Vec<u8>> {
    match bound {
        Bound::Included(key) => Bound::Included(key.as_ref().to_vec()),
        Bound::Excluded(key) => Bound::Excluded(key.as_ref().to_vec()),
        Bound::Unbounded => Bound::Unbounded,
    }
}

fn library_range((start, end): KeyRange) -> Owned {
    (copied(start), copied(end))
}

fn library_made(made: Result<(Key, Key), Refused>) -> Outcome<Owned> {
    status(made.map(|(start, end)| (copied(start.bound()), copied(end.bound()))))
}

fn oracle_range(range: ComparableProbe<&[u8]>) -> Owned {
    (copied(range.start()), copied(range.end()))
}

fn oracle_made(made: Outcome<BytesProbe>) -> Outcome<Owned> {
    made.map(|range| (copied(range.start()), copied(range.end())))
}

fn status<T>(answer: Result<T, Refused>) -> Outcome<T> {
    answer.map_err(|refused| match refused {
        Refused::LongKey => LONG_KEY,
        Refused::EmptyRange => EMPTY_RANGE,
    })
}

/// Short keys, and one at the limit and one beyond it.
fn keys() -> Vec<&'static [u8]> {
    let mut keys = keys_up_to(1, &[0x61, 0xff]);
    keys.push(b"\x61\x00");
    keys.push(&[0x61; KEY_LIMIT]);
    keys.push(&[0x61; KEY_LIMIT + 1]);
    keys
}

#[test]
fn keys_and_prefixes() {
    let mut tally = Tally::default();
    for &a in &keys() {
        for &b in &keys() {
            let about = (a, b);
            tally.same(stranvek_sys::compare(a, b), a.cmp(b), &about);
            tally.same(stranvek_sys::equal(a, b), a == b, &about);
            tally.same(stranvek_sys::starts_with(a, b), a.starts_with(b), &about);
        }
        let made = status(stranvek_sys::increment_prefix(a)).map(|key| copied(key.bound()));
        let theirs = limited::increment_prefix(a).map(|key| match key {
            Some(key) => Bound::Excluded(key.to_vec()),
            None => Bound::Unbounded,
        });
        tally.same(made, theirs, &a);
        let made = library_made(stranvek_sys::from_prefix(a));
        tally.same(made, oracle_made(limited::from_prefix(a)), &a);
    }
    tally.close(6 * (6 * 3 + 2));
}

#[test]
fn ranges() {
    let keys = keys();
    let ranges = ranges_over(&keys);
    let mut tally = Tally::default();
    for &range in &ranges {
        let theirs = ComparableProbe::new(range.0, range.1);
        tally.same(stranvek_sys::non_empty(range), theirs.non_empty(), &range);
        let point = BytesProbe::of(owned(range.0), owned(range.1));
        let point = point.as_point().map(|key| key.to_vec());
        let ours = stranvek_sys::as_point(range).map(<[u8]>::to_vec);
        tally.same(ours, point, &range);
        let ours = status(stranvek_sys::new_range(range)).map(library_range);
        tally.same(ours, oracle_made(limited::new_range(range.0, range.1)), &range);
        for &key in &keys {
            tally.same(stranvek_sys::contains(range, key), theirs.contains(&key), &(range, key));
            let made = stranvek_sys::from_prefix_and_subrange(key, range);
            let due = limited::from_prefix_and_subrange(key, range.0, range.1);
            tally.same(library_made(made), oracle_made(due), &(range, key));
        }
    }
    tally.close(13 * 13 * (3 + 6 * 2));
}

#[test]
fn pairs_of_ranges() {
    let ranges = ranges_over(&keys());
    let mut tally = Tally::default();
    for &a in &ranges {
        let x = ComparableProbe::new(a.0, a.1);
        for &b in &ranges {
            let about = (a, b);
            let y = ComparableProbe::new(b.0, b.1);
            tally.same(stranvek_sys::compare_start(a.0, b.0), x.compare_start(&y), &about);
            tally.same(stranvek_sys::compare_end(a.1, b.1), x.compare_end(&y), &about);
            tally.same(stranvek_sys::compare_range(a, b), x.compare(&y), &about);
            tally.same(stranvek_sys::are_adjacent(a, b), x.are_adjacent(&y), &about);
            let ours = stranvek_sys::intersect(a, b).map(library_range);
            tally.same(ours, x.intersect(&y).map(oracle_range), &about);
            let ours = stranvek_sys::union(a, b).map(library_range);
            tally.same(ours, x.union(&y).map(oracle_range), &about);
        }
    }
    tally.close(13 * 13 * 13 * 13 * 6);
}
