//! Calls on a room of any content: served if it records a state, else refused with 7 and the room unchanged.

use crate::both::Both;
use crate::call::{field, id_of, list_of, Call};
use crate::reader::read;
use crate::Judge;
use stranvek::boundary::Answer;
use stranvek::numbers::NO_STATE;

/// One of each call but fresh, on an id that a room may know and one that none does.
pub fn calls() -> Vec<Call> {
    let range = [field(0x11, b"a"), field(0x10, b"")].concat();
    vec![
        Call::NewTransaction(id_of(0x44)),
        Call::Drop(id_of(0)),
        Call::Writes(id_of(0), list_of(&["a", "zz"])),
        Call::Reads(id_of(0), list_of(&["", "b"])),
        Call::Range(id_of(0), range),
        Call::Check(id_of(0)),
        Call::Commit(id_of(0), 20),
        Call::Batch(list_of(&["ab"]), 3),
        Call::Minimum,
    ]
}

/// How many rooms were refused, and how many recorded a state.
#[derive(Debug, Default)]
pub struct Met {
    pub refused: u64,
    pub served: u64,
}

impl Met {
    /// Serves each call on a copy of the room.
    pub fn serve(&mut self, room: &[u8], calls: &[Call]) {
        let state = read(room);
        for call in calls {
            match &state {
                Some(state) => {
                    let judge = Judge::holding(state.clone());
                    Both { room: room.to_vec(), judge }.call(call);
                    self.served += 1;
                }
                None => {
                    refused(room, call);
                    self.refused += 1;
                }
            }
        }
    }
}

fn refused(room: &[u8], call: &Call) {
    let mut after = room.to_vec();
    let answer = call.ask(&mut after);
    let due = Answer { status: NO_STATE, value: 0 };
    assert_eq!(answer, due, "{:02x?} on a room that records no state", call);
    assert!(after == room, "{:02x?} changed a room that it refused", call);
}
