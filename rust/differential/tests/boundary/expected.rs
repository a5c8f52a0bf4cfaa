//! The oracle's answers in the boundary's own form.

use bytes::Bytes;
use differential::limited::{self, Outcome};
use slatedb_oracle::bytes_range::BytesProbe;
use slatedb_oracle::comparable_range::ComparableProbe;
use std::cmp::Ordering;
use std::ops::Bound;
use stranvek_sys::answers::{
    Compared, Key, MadeKey, MadeKeys, NewRange, Pair, RawBound, RawRange, Told, DONE, EXCLUDED,
    FIRST, INCLUDED, KEY_LIMIT, SECOND, UNBOUNDED,
};

pub fn order(ordering: Ordering) -> Compared {
    Compared { status: DONE, order: ordering as i8 }
}

pub fn test(holds: bool) -> Told {
    Told { status: DONE, holds }
}

/// The range over the very slices that are passed, so that a key is told by its address.
pub fn probe(range: RawRange<'_>) -> ComparableProbe<&[u8]> {
    ComparableProbe::new(range.start.into(), range.end.into())
}

pub fn intersect<T: Ord + Clone + AsRef<[u8]>>(
    a: &ComparableProbe<T>,
    b: &ComparableProbe<T>,
) -> Pair {
    let start_is_second = a.max_start_is_others(b);
    let end_is_second = a.min_end_is_others(b);
    pair(a.intersect(b), a, b, start_is_second, end_is_second)
}

/// The Rust sorts the two: the lesser gives the start, and of the sorted ends `max` takes one.
pub fn union<T: Ord + Clone + AsRef<[u8]>>(a: &ComparableProbe<T>, b: &ComparableProbe<T>) -> Pair {
    let start_is_second = a.compare(b) != Ordering::Less;
    let end_is_second =
        if start_is_second { !b.max_end_is_others(a) } else { a.max_end_is_others(b) };
    pair(a.union(b), a, b, start_is_second, end_is_second)
}

/// The combined range, after a look that the oracle took each bound from the side that is named.
fn pair<T: Ord + Clone + AsRef<[u8]>>(
    combined: Option<ComparableProbe<T>>,
    a: &ComparableProbe<T>,
    b: &ComparableProbe<T>,
    start_is_second: bool,
    end_is_second: bool,
) -> Pair {
    let range = match combined {
        Some(range) => range,
        None => {
            return Pair {
                status: DONE,
                given: false,
                start_kind: UNBOUNDED,
                start_side: FIRST,
                end_kind: UNBOUNDED,
                end_side: FIRST,
            }
        }
    };
    let start_from = if start_is_second { b } else { a };
    let end_from = if end_is_second { b } else { a };
    assert_eq!(place(range.start()), place(start_from.start()));
    assert_eq!(place(range.end()), place(end_from.end()));
    let side = |is_second| if is_second { SECOND } else { FIRST };
    Pair {
        status: DONE,
        given: true,
        start_kind: kind(&range.start()),
        start_side: side(start_is_second),
        end_kind: kind(&range.end()),
        end_side: side(end_is_second),
    }
}

fn kind<T>(bound: &Bound<T>) -> u8 {
    match bound {
        Bound::Included(_) => INCLUDED,
        Bound::Excluded(_) => EXCLUDED,
        Bound::Unbounded => UNBOUNDED,
    }
}

/// A bound's kind, and where its key stands in memory.
fn place<T: AsRef<[u8]>>(bound: Bound<&T>) -> (u8, Option<(*const u8, usize)>) {
    let key = match bound {
        Bound::Included(key) | Bound::Excluded(key) => Some(key.as_ref()),
        Bound::Unbounded => None,
    };
    (kind(&bound), key.map(|key| (key.as_ptr(), key.len())))
}

fn bytes_probe(range: RawRange) -> BytesProbe {
    BytesProbe::of(limited::owned(range.start.into()), limited::owned(range.end.into()))
}

/// Whether the range is a point; that the point is the start's key is looked at here.
pub fn as_point(range: RawRange) -> Told {
    let probe = bytes_probe(range);
    let point = probe.as_point();
    if let Some(point) = point {
        assert_eq!(point, range.start.key);
    }
    test(point.is_some())
}

pub fn contains(range: RawRange, key: &[u8]) -> Told {
    test(bytes_probe(range).contains(&Bytes::copy_from_slice(key)))
}

pub fn new_range(range: RawRange) -> NewRange {
    let (status, start_kind, end_kind) =
        match limited::new_range(range.start.into(), range.end.into()) {
            Ok(made) => (DONE, kind(&made.start()), kind(&made.end())),
            Err(status) => (status, UNBOUNDED, UNBOUNDED),
        };
    NewRange { status, start_kind, end_kind }
}

pub fn increment_prefix(prefix: &[u8]) -> MadeKey {
    match limited::increment_prefix(prefix) {
        Ok(Some(key)) => MadeKey { status: DONE, key: made_key(Bound::Excluded(&key)) },
        Ok(None) => MadeKey { status: DONE, key: made_key(Bound::Unbounded) },
        Err(status) => MadeKey { status, key: made_key(Bound::Unbounded) },
    }
}

pub fn from_prefix(prefix: &[u8]) -> MadeKeys {
    made_range(limited::from_prefix(prefix))
}

pub fn from_prefix_and_subrange(prefix: &[u8], subrange: RawRange) -> MadeKeys {
    let (start, end) = (subrange.start.into(), subrange.end.into());
    made_range(limited::from_prefix_and_subrange(prefix, start, end))
}

fn made_range(outcome: Outcome<BytesProbe>) -> MadeKeys {
    match outcome {
        Ok(made) => {
            MadeKeys { status: DONE, start: made_key(made.start()), end: made_key(made.end()) }
        }
        Err(status) => {
            MadeKeys { status, start: made_key(Bound::Unbounded), end: made_key(Bound::Unbounded) }
        }
    }
}

/// The key with zeros after it, and all zeros where there is none.
fn made_key(bound: Bound<&[u8]>) -> Key {
    let RawBound { kind, key } = RawBound::from(bound);
    let mut bytes = [0; KEY_LIMIT];
    bytes[..key.len()].copy_from_slice(key);
    Key { kind, len: key.len(), bytes }
}
