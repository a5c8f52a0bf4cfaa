use crate::fields;
use crate::numbers::{EXCLUDED, INCLUDED, KEY_LIMIT, UNBOUNDED};
use core::ops::{Bound, RangeBounds};

/// What is passed of a key that is over the limit. The manager judges a room first, then the form, then the lengths of keys,
/// and looks at nothing else of a key that is too long: one byte over the limit gets the answer that the whole key would.
const JUDGED: usize = KEY_LIMIT + 1;

const LONGEST_FIELD: usize = fields::HEAD + JUDGED;

/// A range as the manager reads it: two fields, start then end.
pub(crate) struct Bounds {
    bytes: [u8; 2 * LONGEST_FIELD],
    used: usize,
}

impl Bounds {
    pub(crate) fn of<'k>(range: impl RangeBounds<&'k [u8]>) -> Self {
        let mut bounds = Bounds { bytes: [0; 2 * LONGEST_FIELD], used: 0 };
        bounds.push(range.start_bound());
        bounds.push(range.end_bound());
        bounds
    }

    pub(crate) fn as_bytes(&self) -> &[u8] {
        &self.bytes[..self.used]
    }

    fn push(&mut self, bound: Bound<&&[u8]>) {
        let (tag, key): (u8, &[u8]) = match bound {
            Bound::Included(key) => (INCLUDED, key),
            Bound::Excluded(key) => (EXCLUDED, key),
            Bound::Unbounded => (UNBOUNDED, &[]),
        };
        let judged = &key[..key.len().min(JUDGED)];
        let field = fields::write(&mut self.bytes[self.used..], tag, judged);
        self.used += field.expect("each of the two has its place");
    }
}
