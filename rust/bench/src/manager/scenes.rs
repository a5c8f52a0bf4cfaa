//! What a manager is filled with before its calls are timed, and their arguments in each side's form.

use super::{Id, Manager, MEASURED};
use bytes::Bytes;
use differential::fields::{field, list_of};
use differential::random::Random;
use slatedb_oracle::bytes_range::BytesProbe;
use std::collections::HashSet;
use std::ops::{self, Bound};
use stranvek::numbers::{EXCLUDED, INCLUDED};

/// A list of keys: a set and counted bytes for the original, fields for the others.
pub struct Keys {
    pub set: HashSet<Bytes>,
    pub counted: Vec<Bytes>,
    pub fields: Vec<u8>,
}

pub struct Range {
    pub counted: BytesProbe,
    pub fields: Vec<u8>,
}

/// Bytes that all keys begin with, and bytes of each key's own.
#[derive(Clone, Copy, PartialEq, Eq)]
pub struct KeyForm {
    pub shared: usize,
    pub own: usize,
}

#[derive(Clone, Copy)]
pub struct Shape {
    pub keys: KeyForm,
    /// Active from before the first entry, so that all entries are kept, each with one write and one read of its own.
    pub others: usize,
    pub entries: usize,
    pub keys_an_entry: usize,
    /// Entries above the start of the measured transaction.
    pub above: usize,
    /// Whether the first of them holds a key that it writes; no other key of an entry is one of its own.
    pub conflicts: bool,
    pub writes: usize,
    pub reads: usize,
    /// Each holds one key, which nobody writes.
    pub ranges: usize,
}

/// How far the measured transaction has come before the clock starts.
#[derive(Clone, Copy, PartialEq, Eq)]
pub enum Ready {
    Absent,
    Begun,
    Tracked,
}

struct Other {
    id: Id,
    writes: Keys,
    reads: Keys,
}

pub struct Scene {
    shape: Shape,
    entries: Vec<Keys>,
    others: Vec<Other>,
    writes: Keys,
    reads: Keys,
    ranges: Vec<Range>,
}

const BYTES_OF_OTHERS: usize = 8;

impl Scene {
    pub fn drawn(random: &mut Random, shape: Shape) -> Scene {
        let front = random.bytes(shape.keys.shared);
        let own = shape.keys.own;
        let mut keys = |count| drawn_keys(random, &front, own, count);
        let writes = keys(shape.writes);
        let mut entries: Vec<_> = (0..shape.entries).map(|_| keys(shape.keys_an_entry)).collect();
        if shape.conflicts {
            entries[shape.entries - shape.above][0] = writes[0].clone();
        }
        let reads = keys(shape.reads);
        let ranges = keys(shape.ranges).into_iter().map(holding_one).collect();
        let others = (0..shape.others).map(|_| other(random)).collect();
        let entries = entries.into_iter().map(Keys::of).collect();
        Scene { shape, entries, others, writes: Keys::of(writes), reads: Keys::of(reads), ranges }
    }

    pub(super) fn fill(&self, manager: &mut dyn Manager, ready: Ready) {
        for other in &self.others {
            manager.new_transaction(&other.id);
            manager.track_write_keys(&other.id, &other.writes);
            manager.track_read_keys(&other.id, &other.reads);
        }
        let below = self.shape.entries - self.shape.above;
        self.commit_batches(manager, 0..below);
        if ready != Ready::Absent {
            manager.new_transaction(&MEASURED);
        }
        self.commit_batches(manager, below..self.shape.entries);
        if ready == Ready::Tracked {
            self.track(manager);
        }
    }

    /// Sequences from 1 on.
    fn commit_batches(&self, manager: &mut dyn Manager, places: ops::Range<usize>) {
        for place in places {
            let seq = place as u64 + 1;
            manager.track_recent_committed_write_batch(&self.entries[place], seq);
        }
    }

    /// All that the measured transaction tracks.
    pub(super) fn track(&self, manager: &mut dyn Manager) {
        self.track_writes(manager);
        if self.shape.reads > 0 {
            manager.track_read_keys(&MEASURED, &self.reads);
        }
        self.track_ranges(manager);
    }

    pub(super) fn track_writes(&self, manager: &mut dyn Manager) {
        manager.track_write_keys(&MEASURED, &self.writes);
    }

    pub(super) fn track_ranges(&self, manager: &mut dyn Manager) {
        for range in &self.ranges {
            manager.track_read_range(&MEASURED, range);
        }
    }

    /// At the last number, so that the number stays.
    pub(super) fn commit(&self, manager: &mut dyn Manager) {
        manager.track_recent_committed_txn(&MEASURED, self.shape.entries as u64);
    }
}

impl Keys {
    fn of(keys: Vec<Vec<u8>>) -> Keys {
        let fields = list_of(&keys);
        let counted: Vec<Bytes> = keys.into_iter().map(Bytes::from).collect();
        Keys { set: counted.iter().cloned().collect(), counted, fields }
    }
}

fn drawn_keys(random: &mut Random, front: &[u8], own: usize, count: usize) -> Vec<Vec<u8>> {
    (0..count).map(|_| [front, &random.bytes(own)].concat()).collect()
}

/// From a key, included, to the next key that there is, excluded.
fn holding_one(key: Vec<u8>) -> Range {
    let next = [&key[..], &[0]].concat();
    let fields = [field(INCLUDED, &key), field(EXCLUDED, &next)].concat();
    let counted = BytesProbe::new(Bound::Included(key.into()), Bound::Excluded(next.into()));
    Range { counted, fields }
}

fn other(random: &mut Random) -> Other {
    let mut one_key = || Keys::of(drawn_keys(random, &[], BYTES_OF_OTHERS, 1));
    let (writes, reads) = (one_key(), one_key());
    Other { id: random.bytes(16).try_into().expect("16 bytes"), writes, reads }
}
