//! The library's room and the judge side by side, held to each other after every call.

use crate::call::Call;
use crate::reader::{read, SIZE};
use crate::Judge;
use stranvek::boundary::Answer;
use stranvek::numbers::{ABSENT, DONE};

/// Bytes beyond the published size, of no call's concern.
const BEYOND: usize = 64;

/// How often each status was answered.
pub type Statuses = [u64; 8];

#[derive(Clone)]
pub struct Both {
    pub room: Vec<u8>,
    pub judge: Judge,
}

impl Both {
    /// A room of any content, made fresh.
    pub fn fresh(last: u64, filled: u8) -> Self {
        let mut both =
            Both { room: vec![filled; SIZE + BEYOND], judge: Judge::fresh(last.wrapping_add(1)) };
        both.call(&Call::New(last));
        both
    }

    /// Serves a call on both sides; whether it changed a byte of the room.
    pub fn call(&mut self, call: &Call) -> (Answer, bool) {
        let before = self.room.clone();
        let ours = call.ask(&mut self.room);
        let theirs = self.judge.answer(call);
        assert_eq!(ours, theirs, "the library's answer and the judge's, to {:02x?}", call);
        assert!(self.room[SIZE..] == before[SIZE..], "bytes beyond the size, after {:02x?}", call);
        let changed = self.room[..SIZE] != before[..SIZE];
        let may = ours.status == DONE || ours.status == ABSENT && call.acts_when_absent();
        assert!(may || !changed, "the room changed with status {}: {:02x?}", ours.status, call);
        let state = read(&self.room);
        let same = state.as_ref() == Some(&self.judge.state);
        assert!(same, "after {:02x?}: {:02x?} {:02x?}", call, state, self.judge.state);
        (ours, changed)
    }
}
