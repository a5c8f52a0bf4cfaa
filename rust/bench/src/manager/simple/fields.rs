//! Ids, key lists and bounds from document 01's fields, with their statuses.

use super::sets::Range;
use crate::manager::Id;
use std::ops::Bound;
use stranvek::numbers::{
    EMPTY_RANGE, EXCLUDED, INCLUDED, KEY_LIMIT, LONG_KEY, MALFORMED, UNBOUNDED,
};

/// The tag of a key in a list.
const KEY_TAG: u8 = 0x4b;

/// A tag and a payload.
type Field<'a> = (u8, &'a [u8]);

pub fn id(bytes: &[u8]) -> Result<Id, u8> {
    bytes.try_into().map_err(|_| MALFORMED)
}

pub fn key_list(bytes: &[u8]) -> Result<Vec<&[u8]>, u8> {
    let mut keys = Vec::new();
    let mut rest = bytes;
    while !rest.is_empty() {
        let ((tag, key), after) = first(rest).ok_or(MALFORMED)?;
        if tag != KEY_TAG {
            return Err(MALFORMED);
        }
        keys.push(key);
        rest = after;
    }
    within_limit(&keys)?;
    Ok(keys)
}

pub fn range(bytes: &[u8]) -> Result<Range, u8> {
    let (start, rest) = first(bytes).ok_or(MALFORMED)?;
    let (end, rest) = first(rest).ok_or(MALFORMED)?;
    let range = Range { start: bound(start)?, end: bound(end)? };
    if !rest.is_empty() {
        return Err(MALFORMED);
    }
    within_limit(&[start.1, end.1])?;
    if range.is_empty() {
        return Err(EMPTY_RANGE);
    }
    Ok(range)
}

/// The first field, and what stands after it.
fn first(bytes: &[u8]) -> Option<(Field<'_>, &[u8])> {
    let length = usize::from(u16::from_be_bytes([*bytes.get(1)?, *bytes.get(2)?]));
    let payload = bytes.get(3..3 + length)?;
    Some(((bytes[0], payload), &bytes[3 + length..]))
}

fn bound((tag, key): Field) -> Result<Bound<Box<[u8]>>, u8> {
    match tag {
        UNBOUNDED if key.is_empty() => Ok(Bound::Unbounded),
        INCLUDED => Ok(Bound::Included(key.into())),
        EXCLUDED => Ok(Bound::Excluded(key.into())),
        _ => Err(MALFORMED),
    }
}

fn within_limit(keys: &[&[u8]]) -> Result<(), u8> {
    if keys.iter().any(|key| key.len() > KEY_LIMIT) {
        return Err(LONG_KEY);
    }
    Ok(())
}
