//! Key lists and bounds read as document 01 writes them, without a line of the library's.

use bytes::Bytes;
use slatedb_oracle::transaction_manager::KeyRange;
use std::ops::Bound;

/// The first field's tag and payload, and what stands after it.
fn first(bytes: &[u8]) -> Option<(u8, &[u8], &[u8])> {
    let length = usize::from(u16::from_be_bytes([*bytes.get(1)?, *bytes.get(2)?]));
    Some((bytes[0], bytes.get(3..3 + length)?, &bytes[3 + length..]))
}

/// Nothing where the list is badly formed.
pub fn key_list(mut bytes: &[u8]) -> Option<Vec<Bytes>> {
    let mut keys = Vec::new();
    while !bytes.is_empty() {
        let (tag, key, rest) = first(bytes)?;
        if tag != 0x4b {
            return None;
        }
        keys.push(Bytes::copy_from_slice(key));
        bytes = rest;
    }
    Some(keys)
}

fn bound(bytes: &[u8]) -> Option<(Bound<Bytes>, &[u8])> {
    let (tag, key, rest) = first(bytes)?;
    let key_bytes = Bytes::copy_from_slice(key);
    match tag {
        0x10 if key.is_empty() => Some((Bound::Unbounded, rest)),
        0x11 => Some((Bound::Included(key_bytes), rest)),
        0x12 => Some((Bound::Excluded(key_bytes), rest)),
        _ => None,
    }
}

/// Two fields, start then end, and nothing after them.
pub fn bounds(bytes: &[u8]) -> Option<KeyRange> {
    let (range, rest) = leading_bounds(bytes)?;
    rest.is_empty().then_some(range)
}

/// The bounds that some bytes begin with: the record of a range in a room has their form too.
pub fn leading_bounds(bytes: &[u8]) -> Option<(KeyRange, &[u8])> {
    let (start, rest) = bound(bytes)?;
    let (end, rest) = bound(rest)?;
    Some(((start, end), rest))
}

pub fn key_length(bound: &Bound<Bytes>) -> usize {
    match bound {
        Bound::Included(key) | Bound::Excluded(key) => key.len(),
        Bound::Unbounded => 0,
    }
}
