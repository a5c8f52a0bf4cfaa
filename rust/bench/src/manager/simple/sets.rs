//! Sorted vectors of keys, and ranges over them.

use std::cmp::Ordering;
use std::ops::Bound;

/// Ascending, each key once.
pub type Set = Vec<Box<[u8]>>;

#[derive(Clone)]
pub struct Range {
    pub start: Bound<Box<[u8]>>,
    pub end: Bound<Box<[u8]>>,
}

/// The keys of a list that a set lacks, ascending, each once.
pub fn lacking<'a>(set: &[Box<[u8]>], mut keys: Vec<&'a [u8]>) -> Vec<&'a [u8]> {
    keys.sort_unstable();
    keys.dedup();
    keys.retain(|key| set.binary_search_by(|held| (**held).cmp(key)).is_err());
    keys
}

/// Adds keys that the set lacks.
pub fn add(set: &mut Set, keys: &[&[u8]]) {
    set.extend(keys.iter().map(|&key| Box::from(key)));
    set.sort_unstable();
}

/// Merges the two sets up to the first shared key.
pub fn share_a_key(a: &[Box<[u8]>], b: &[Box<[u8]>]) -> bool {
    let (mut in_a, mut in_b) = (0, 0);
    while in_a < a.len() && in_b < b.len() {
        match a[in_a].cmp(&b[in_b]) {
            Ordering::Less => in_a += 1,
            Ordering::Greater => in_b += 1,
            Ordering::Equal => return true,
        }
    }
    false
}

impl Range {
    /// Document 01's rule of emptiness.
    pub fn is_empty(&self) -> bool {
        match (&self.start, &self.end) {
            (Bound::Unbounded, _) | (_, Bound::Unbounded) => false,
            (Bound::Included(start), Bound::Included(end)) => start > end,
            (
                Bound::Included(start) | Bound::Excluded(start),
                Bound::Included(end) | Bound::Excluded(end),
            ) => start >= end,
        }
    }

    /// Whether the first key that meets the start meets the end too.
    pub fn holds_one_of(&self, set: &[Box<[u8]>]) -> bool {
        let first = match &self.start {
            Bound::Unbounded => 0,
            Bound::Included(start) => set.partition_point(|key| key < start),
            Bound::Excluded(start) => set.partition_point(|key| key <= start),
        };
        set.get(first).map_or(false, |key| match &self.end {
            Bound::Unbounded => true,
            Bound::Included(end) => key <= end,
            Bound::Excluded(end) => key < end,
        })
    }
}
