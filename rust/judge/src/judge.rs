//! The unchanged Rust under document 01's table of statuses: the table says whether a call is refused, the Rust all the rest.

use crate::call::Call;
use crate::forms;
use crate::totals::{self, Totals, ACTIVE_LIMIT, ENTRY_LIMIT, KEY_LIMIT};
use bytes::Bytes;
use slatedb_oracle::bytes_range::BytesProbe;
use slatedb_oracle::transaction_manager::{Active, Id, ManagerProbe, State};
use stranvek::boundary::Answer;
use stranvek::numbers::{ABSENT, AGAIN, DONE, EMPTY_RANGE, FULL, LONG_KEY, MALFORMED};

pub struct Judge {
    manager: ManagerProbe,
    pub state: State,
}

impl Clone for Judge {
    fn clone(&self) -> Self {
        Judge::holding(self.state.clone())
    }
}

/// The arguments of a call that is well formed.
struct Asked {
    id: Id,
    keys: Vec<Bytes>,
    range: Option<BytesProbe>,
    added: Totals,
}

impl Judge {
    pub fn holding(state: State) -> Self {
        Judge { manager: ManagerProbe::holding(&state), state }
    }

    pub fn fresh(last: u64) -> Self {
        let manager = ManagerProbe::new(last);
        let state = manager.state();
        Judge { manager, state }
    }

    pub fn answer(&mut self, call: &Call) -> Answer {
        let asked = match self.asked(call) {
            Ok(asked) => asked,
            Err(status) => return Answer { status, value: 0 },
        };
        let known = self.active(&asked.id).is_some();
        let absent = match call {
            Call::Minimum => self.state.active.is_empty(),
            Call::NewTransaction(_) => false,
            _ => call.id().is_some() && !known,
        };
        if known && matches!(call, Call::NewTransaction(_)) {
            return Answer { status: AGAIN, value: 0 };
        }
        if !absent && self.no_room(call, &asked) {
            return Answer { status: FULL, value: 0 };
        }
        let before = totals::totals(&self.state).0;
        let value = self.act(call, asked);
        self.state = self.manager.state();
        let value = value.unwrap_or_else(|| (totals::totals(&self.state).0 - before) as u64);
        Answer { status: if absent { ABSENT } else { DONE }, value }
    }

    fn active(&self, id: &Id) -> Option<&Active> {
        self.state.active.iter().find(|txn| txn.id == *id)
    }

    /// The call's arguments, or 2, 4 or 5; whether a range is empty says the Rust.
    fn asked(&self, call: &Call) -> Result<Asked, u8> {
        let id = match call.id() {
            Some(id) => id.try_into().map_err(|_| MALFORMED)?,
            None => [0; 16],
        };
        let mut asked = Asked { id, keys: Vec::new(), range: None, added: (0, 0) };
        if let Some(list) = call.key_list() {
            asked.keys = forms::key_list(list).ok_or(MALFORMED)?;
            if asked.keys.iter().any(|key| key.len() > KEY_LIMIT) {
                return Err(LONG_KEY);
            }
            asked.added = self.newly_stored(call, &asked);
        }
        if let Call::Range(_, bounds) = call {
            let range = forms::bounds(bounds).ok_or(MALFORMED)?;
            let longest = forms::key_length(&range.0).max(forms::key_length(&range.1));
            if longest > KEY_LIMIT {
                return Err(LONG_KEY);
            }
            asked.added = totals::of_range(&range);
            asked.range = Some(BytesProbe::try_new(range.0, range.1).ok_or(EMPTY_RANGE)?);
        }
        Ok(asked)
    }

    /// "A key already in that set costs nothing; twice in one list counts once."
    fn newly_stored(&self, call: &Call, asked: &Asked) -> Totals {
        let set: &[Bytes] = match (call, self.active(&asked.id)) {
            (Call::Writes(..), Some(txn)) => &txn.writes,
            (Call::Reads(..), Some(txn)) => &txn.reads,
            _ => &[],
        };
        let mut keys = asked.keys.clone();
        keys.sort_unstable();
        keys.dedup();
        keys.retain(|key| set.binary_search(key).is_err());
        totals::of_keys(&keys)
    }

    /// Row 6, in document 01's words.
    fn no_room(&self, call: &Call, asked: &Asked) -> bool {
        let others = self.state.active.iter().filter(|txn| txn.id != asked.id).count();
        let entries_full = self.state.entries.len() == ENTRY_LIMIT;
        let passes = || totals::passed(totals::joined(totals::totals(&self.state), asked.added));
        match call {
            Call::NewTransaction(_) => self.state.active.len() == ACTIVE_LIMIT,
            Call::Writes(..) | Call::Reads(..) | Call::Range(..) => passes(),
            Call::Batch(..) => !self.state.active.is_empty() && (entries_full || passes()),
            Call::Commit(..) => entries_full && others > 0,
            Call::New(_) | Call::Drop(_) | Call::Check(_) | Call::Minimum => false,
        }
    }

    /// What the Rust does; its value, but for the tracks, which answer nothing in the Rust.
    fn act(&mut self, call: &Call, asked: Asked) -> Option<u64> {
        let (manager, id, keys) = (&self.manager, asked.id, &asked.keys);
        match call {
            Call::New(last) => {
                self.manager = ManagerProbe::new(*last);
                return Some(*last);
            }
            Call::NewTransaction(_) => return Some(manager.new_transaction(id)),
            Call::Check(_) => return Some(u64::from(manager.check_has_conflict(id))),
            Call::Minimum => return Some(manager.min_active_seq().unwrap_or(0)),
            Call::Writes(..) => manager.track_write_keys(id, keys),
            Call::Reads(..) => manager.track_read_keys(id, keys),
            Call::Range(..) => manager.track_read_range(id, asked.range.expect("a range")),
            Call::Drop(_) => manager.drop_txn(id),
            Call::Commit(_, seq) => manager.track_recent_committed_txn(id, *seq),
            Call::Batch(_, seq) => manager.track_recent_committed_write_batch(keys, *seq),
        }
        match call {
            Call::Drop(_) => Some(manager.state().entries.len() as u64),
            Call::Commit(..) | Call::Batch(..) => Some(manager.state().last),
            _ => None,
        }
    }
}
