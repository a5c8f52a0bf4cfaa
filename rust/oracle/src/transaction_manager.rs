include!("slatedb/transaction_manager.rs");

use crate::bytes_range::BytesProbe;
use crate::db_status::DbStatusManager;
use std::ops::Bound;

pub type Id = [u8; 16];
pub type KeyRange = (Bound<Bytes>, Bound<Bytes>);

/// A committed transaction or batch that is still remembered, its keys ascending.
#[derive(Clone, Debug, PartialEq, Eq)]
pub struct Entry {
    pub seq: u64,
    pub keys: Vec<Bytes>,
}

/// An active transaction, the keys of its sets ascending.
#[derive(Clone, Debug, PartialEq, Eq)]
pub struct Active {
    pub id: Id,
    pub start: u64,
    pub writes: Vec<Bytes>,
    pub reads: Vec<Bytes>,
    pub ranges: Vec<KeyRange>,
}

/// What a manager holds, the active ones ascending by id.
#[derive(Clone, Debug, PartialEq, Eq)]
pub struct State {
    pub last: u64,
    pub entries: Vec<Entry>,
    pub active: Vec<Active>,
}

/// A `TransactionManager`, open to the tests.
pub struct ManagerProbe {
    manager: TransactionManager,
    oracle: Arc<DbOracle>,
    ids: Arc<DbRand>,
}

impl ManagerProbe {
    pub fn new(last: u64) -> Self {
        let oracle = Arc::new(DbOracle::new(last, last, last, Arc::new(DbStatusManager)));
        let ids = Arc::new(DbRand::new(Uuid::nil()));
        let manager = TransactionManager::new(oracle.clone(), ids.clone());
        ManagerProbe { manager, oracle, ids }
    }

    /// A manager that holds a state.
    pub fn holding(state: &State) -> Self {
        let probe = ManagerProbe::new(state.last);
        let entries = state.entries.iter().map(of_entry);
        probe.manager.inner.write().recent_committed_txns.extend(entries);
        state.active.iter().for_each(|active| probe.put_active(active));
        probe
    }

    /// Puts a transaction in as it stands, in place of one with its id.
    pub fn put_active(&self, active: &Active) {
        let id = Uuid::from_bytes(active.id);
        self.manager.inner.write().active_txns.insert(id, of_active(active));
    }

    /// Forgets all entries but the first ones.
    pub fn truncate_entries(&self, count: usize) {
        self.manager.inner.write().recent_committed_txns.truncate(count);
    }

    /// A transaction's marks, none where it is not active; the entries; the last number.
    pub fn counts(&self, id: Id) -> (usize, usize, u64) {
        let inner = self.manager.inner.read();
        let marks = inner
            .active_txns
            .get(&Uuid::from_bytes(id))
            .map_or(0, |txn| txn.write_keys.len() + txn.read_keys.len() + txn.read_ranges.len());
        (marks, inner.recent_committed_txns.len(), self.oracle.last_committed_seq())
    }

    pub fn state(&self) -> State {
        let inner = self.manager.inner.read();
        let mut active: Vec<Active> = inner.active_txns.iter().map(to_active).collect();
        active.sort_by_key(|txn| txn.id);
        let entries = inner.recent_committed_txns.iter().map(to_entry).collect();
        State { last: self.oracle.last_committed_seq(), entries, active }
    }

    /// Replaces the transaction if the id is active, as the Rust does.
    pub fn new_transaction(&self, id: Id) -> u64 {
        self.ids.choose(Uuid::from_bytes(id));
        self.manager.new_transaction().1
    }

    pub fn drop_txn(&self, id: Id) {
        self.manager.drop_txn(&Uuid::from_bytes(id));
    }

    pub fn track_write_keys(&self, id: Id, keys: &[Bytes]) {
        self.track_write_set(id, &set(keys));
    }

    /// As the Rust's own callers have it.
    pub fn track_write_set(&self, id: Id, keys: &HashSet<Bytes>) {
        self.manager.track_write_keys(&Uuid::from_bytes(id), keys);
    }

    pub fn track_read_keys(&self, id: Id, keys: &[Bytes]) {
        self.manager.track_read_keys(&Uuid::from_bytes(id), keys.iter().cloned());
    }

    pub fn track_read_range(&self, id: Id, range: BytesProbe) {
        self.manager.track_read_range(&Uuid::from_bytes(id), range.into_range());
    }

    pub fn check_has_conflict(&self, id: Id) -> bool {
        self.manager.check_has_conflict(&Uuid::from_bytes(id))
    }

    pub fn track_recent_committed_txn(&self, id: Id, seq: u64) {
        self.manager.track_recent_committed_txn(&Uuid::from_bytes(id), seq);
    }

    pub fn track_recent_committed_write_batch(&self, keys: &[Bytes], seq: u64) {
        self.manager.track_recent_committed_write_batch(&set(keys), seq);
    }

    pub fn min_active_seq(&self) -> Option<u64> {
        self.manager.min_active_seq()
    }
}

fn set(keys: &[Bytes]) -> HashSet<Bytes> {
    keys.iter().cloned().collect()
}

fn ascending(keys: &HashSet<Bytes>) -> Vec<Bytes> {
    let mut keys: Vec<Bytes> = keys.iter().cloned().collect();
    keys.sort_unstable();
    keys
}

fn to_entry(txn: &TransactionState) -> Entry {
    let seq = txn.committed_seq.expect("what is remembered was committed");
    assert!(txn.read_keys.is_empty() && txn.read_ranges.is_empty());
    Entry { seq, keys: ascending(&txn.write_keys) }
}

fn to_active((id, txn): (&Uuid, &TransactionState)) -> Active {
    assert_eq!(txn.committed_seq, None);
    let bounds = |range: &BytesRange| (range.start_bound().cloned(), range.end_bound().cloned());
    Active {
        id: *id.as_bytes(),
        start: txn.started_seq,
        writes: ascending(&txn.write_keys),
        reads: ascending(&txn.read_keys),
        ranges: txn.read_ranges.iter().map(bounds).collect(),
    }
}

fn of_active(active: &Active) -> TransactionState {
    let range = |(start, end): &KeyRange| BytesRange::new(start.clone(), end.clone());
    TransactionState {
        started_seq: active.start,
        committed_seq: None,
        write_keys: set(&active.writes),
        read_keys: set(&active.reads),
        read_ranges: active.ranges.iter().map(range).collect(),
    }
}

fn of_entry(entry: &Entry) -> TransactionState {
    TransactionState {
        started_seq: entry.seq,
        committed_seq: Some(entry.seq),
        write_keys: set(&entry.keys),
        read_keys: HashSet::new(),
        read_ranges: Vec::new(),
    }
}
