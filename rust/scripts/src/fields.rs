//! Document 01's fields: a tag, a length of two bytes, a payload.

use crate::record::Key;
use std::ops::Bound;

const KEY: u8 = 0x4b;
const UNBOUNDED: u8 = 0x10;
const INCLUDED: u8 = 0x11;
const EXCLUDED: u8 = 0x12;

/// The first field's tag and payload, and what stands after it; nothing where it is cut.
pub fn first(bytes: &[u8]) -> Option<(u8, &[u8], &[u8])> {
    let length = usize::from(u16::from_be_bytes([*bytes.get(1)?, *bytes.get(2)?]));
    Some((bytes[0], bytes.get(3..3 + length)?, &bytes[3 + length..]))
}

pub fn field(tag: u8, payload: &[u8]) -> Vec<u8> {
    let length = u16::try_from(payload.len()).expect("a record's limit is below a field's");
    [&[tag], &length.to_be_bytes()[..], payload].concat()
}

/// Nothing where the list is badly formed.
pub fn read_list(mut bytes: &[u8]) -> Option<Vec<Key>> {
    let mut keys = Vec::new();
    while !bytes.is_empty() {
        let (tag, key, rest) = first(bytes)?;
        if tag != KEY {
            return None;
        }
        keys.push(key.to_vec());
        bytes = rest;
    }
    Some(keys)
}

pub fn list(keys: &[Key]) -> Vec<u8> {
    keys.iter().flat_map(|key| field(KEY, key)).collect()
}

/// A start and an end, and nothing after them.
pub fn read_bounds(bytes: &[u8]) -> Option<(Bound<Key>, Bound<Key>)> {
    let (start, rest) = read_bound(bytes)?;
    let (end, rest) = read_bound(rest)?;
    rest.is_empty().then_some((start, end))
}

fn read_bound(bytes: &[u8]) -> Option<(Bound<Key>, &[u8])> {
    let (tag, key, rest) = first(bytes)?;
    match tag {
        UNBOUNDED if key.is_empty() => Some((Bound::Unbounded, rest)),
        INCLUDED => Some((Bound::Included(key.to_vec()), rest)),
        EXCLUDED => Some((Bound::Excluded(key.to_vec()), rest)),
        _ => None,
    }
}

pub fn bound(bound: &Bound<Key>) -> Vec<u8> {
    match bound {
        Bound::Unbounded => field(UNBOUNDED, &[]),
        Bound::Included(key) => field(INCLUDED, key),
        Bound::Excluded(key) => field(EXCLUDED, key),
    }
}
