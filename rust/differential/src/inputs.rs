//! Every key over an alphabet up to a length, and every bound over some keys.

use std::ops::Bound;

/// A start and an end.
pub type KeyRange<'a> = (Bound<&'a [u8]>, Bound<&'a [u8]>);

/// Shortest first; each key stands in memory of its own, the empty one too, so that its address tells it from an equal key.
pub fn keys_up_to(length: usize, alphabet: &[u8]) -> Vec<&'static [u8]> {
    let mut keys = vec![key_of(&[])];
    let mut longest = 0;
    for _ in 0..length {
        let next = keys.len();
        for at in longest..next {
            for &byte in alphabet {
                keys.push(key_of(&[keys[at], &[byte]].concat()));
            }
        }
        longest = next;
    }
    keys
}

fn key_of(bytes: &[u8]) -> &'static [u8] {
    let mut key = Vec::with_capacity(bytes.len() + 1);
    key.extend_from_slice(bytes);
    key.leak()
}

/// The unbounded bound, then each key included and excluded.
pub fn bounds_over<'a>(keys: &[&'a [u8]]) -> Vec<Bound<&'a [u8]>> {
    let mut bounds = vec![Bound::Unbounded];
    for &key in keys {
        bounds.push(Bound::Included(key));
        bounds.push(Bound::Excluded(key));
    }
    bounds
}

/// Every pair of bounds, empty ranges too.
pub fn ranges_over<'a>(keys: &[&'a [u8]]) -> Vec<KeyRange<'a>> {
    let bounds = bounds_over(keys);
    let ends = |&start: &Bound<&'a [u8]>| bounds.iter().map(move |&end| (start, end));
    bounds.iter().flat_map(ends).collect()
}
