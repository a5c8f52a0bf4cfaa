//! A fuzzer's bytes played on a room: each call's answer and the room after it are compared with the judge's.

use crate::decoded::{step, Step};
use crate::input::Input;
use judge::both::{Both, Statuses};
use judge::call::Call;
use judge::met::Met;
use judge::reader::{read, SIZE};
use judge::Judge;
use std::slice;
use stranvek::numbers::NO_STATE;

/// The most steps of one input, so that one run stays short.
const STEPS: usize = 200;

/// Lengths of rooms that are given as bytes: too short, whole, and with bytes beyond the size.
const LENGTHS: [usize; 4] = [SIZE, SIZE + 64, SIZE - 1, 20];

/// What a room holds: a state, with the judge that holds it too, or none.
enum Held {
    State(Both),
    Nothing(Vec<u8>),
}

/// How often each status was answered to each kind of call.
#[derive(Debug, Default)]
pub struct Played {
    pub statuses: [Statuses; 10],
}

impl Held {
    fn of(room: Vec<u8>) -> Self {
        match read(&room) {
            Some(state) => Held::State(Both { room, judge: Judge::holding(state) }),
            None => Held::Nothing(room),
        }
    }

    /// A room made fresh, or one of the input's own bytes and a filler behind them.
    fn given(input: &mut Input) -> Self {
        if input.byte() % 2 == 0 {
            return Held::State(Both::fresh(input.eight(), 0xa5));
        }
        let (length, filler, record) = (input.pick(&LENGTHS), input.byte(), input.two());
        let mut room = input.part(record).to_vec();
        room.resize(length, filler);
        Held::of(room)
    }

    fn last(&self) -> u64 {
        match self {
            Held::State(both) => both.judge.state.last,
            Held::Nothing(_) => 0,
        }
    }

    /// The room with one byte set, if it has that byte.
    fn damaged(self, at: usize, byte: u8) -> Self {
        let mut room = match self {
            Held::State(both) => both.room,
            Held::Nothing(room) => room,
        };
        if let Some(place) = room.get_mut(at) {
            *place = byte;
        }
        Held::of(room)
    }

    /// Serves a call on both sides and compares; the room afterwards, and the status.
    fn called(self, call: &Call) -> (Self, u8) {
        let mut both = match (self, call) {
            (Held::State(both), _) => both,
            (Held::Nothing(room), Call::New(last)) if room.len() >= SIZE => {
                Both { room, judge: Judge::fresh(last.wrapping_add(1)) }
            }
            (Held::Nothing(room), _) => {
                let mut met = Met::default();
                met.serve(&room, slice::from_ref(call));
                assert_eq!((met.refused, met.served), (1, 0));
                return (Held::Nothing(room), NO_STATE);
            }
        };
        let (answer, _) = both.call(call);
        (Held::State(both), answer.status)
    }
}

impl Played {
    /// Plays an input; `told` hears of each step before it is taken.
    pub fn play(&mut self, bytes: &[u8], mut told: impl FnMut(&Step)) {
        let mut input = Input(bytes);
        let mut held = Held::given(&mut input);
        for _ in 0..STEPS {
            if input.is_over() {
                break;
            }
            let step = step(&mut input, held.last());
            told(&step);
            held = match &step {
                Step::Damage(at, byte) => held.damaged(*at, *byte),
                Step::Call(call) => {
                    let (held, status) = held.called(call);
                    self.statuses[kind(call)][usize::from(status)] += 1;
                    held
                }
            };
        }
    }
}

fn kind(call: &Call) -> usize {
    match call {
        Call::New(_) => 0,
        Call::NewTransaction(_) => 1,
        Call::Drop(_) => 2,
        Call::Writes(..) => 3,
        Call::Reads(..) => 4,
        Call::Range(..) => 5,
        Call::Check(_) => 6,
        Call::Commit(..) => 7,
        Call::Batch(..) => 8,
        Call::Minimum => 9,
    }
}
