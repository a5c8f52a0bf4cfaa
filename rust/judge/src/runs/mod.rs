//! The fixed sample of runs: a run begins with a byte 00 and the number that its room is made fresh at, in eight bytes;
//! script records follow. Its lines are `run` and that number, then a status and a value for each record.
//!
//! The answers are the judge's: document 01's table says whether a call is refused (statuses 2 to 6), and the unchanged Rust
//! all the rest. No line of the library's makes them.

mod chosen;
mod full;

use crate::call::{field, Call};
use crate::draws;
use crate::records::{parts, PAYLOAD_LIMIT};
use crate::Judge;
use differential::random::Random;
use std::fmt::Write;

/// What the replaying program has place for.
const LIMIT: usize = 262_144;

/// Random runs, and the calls of each.
const RANDOM_RUNS: usize = 60;
const RANDOM_CALLS: usize = 60;

/// The tag of a check's record.
const CHECK: u8 = 0x05;

pub struct Sample {
    pub records: Vec<u8>,
    pub lines: String,
    pub runs: usize,
    /// How often each status was answered.
    pub statuses: [usize; 8],
    pub conflicts: usize,
    judge: Judge,
}

impl Sample {
    pub fn whole() -> Self {
        let mut sample = Sample {
            records: Vec::new(),
            lines: String::new(),
            runs: 0,
            statuses: [0; 8],
            conflicts: 0,
            judge: Judge::fresh(0),
        };
        chosen::runs(&mut sample);
        chosen::every_pair(&mut sample);
        full::runs(&mut sample);
        sample.random_runs();
        assert!(sample.records.len() <= LIMIT, "the runs outgrow their reader");
        sample
    }

    pub fn fresh(&mut self, last: u64) {
        self.judge = Judge::fresh(last);
        self.records.push(0);
        self.records.extend_from_slice(&last.to_be_bytes());
        writeln!(self.lines, "run {}", last).expect("a string takes all");
        self.runs += 1;
    }

    pub fn run(&mut self, last: u64, calls: &[Call]) {
        self.fresh(last);
        calls.iter().for_each(|call| self.ask(call));
    }

    pub fn ask(&mut self, call: &Call) {
        let (tag, payload) = parts(call);
        self.ask_raw(tag, &payload);
    }

    pub fn ask_raw(&mut self, tag: u8, payload: &[u8]) {
        assert!(payload.len() <= PAYLOAD_LIMIT, "a payload that ends no run");
        let answer = self.judge.answer_record(tag, payload);
        self.records.extend(field(tag, payload));
        writeln!(self.lines, "{} {}", answer.status, answer.value).expect("a string takes all");
        self.statuses[usize::from(answer.status)] += 1;
        self.conflicts += usize::from(tag == CHECK && answer.value == 1);
    }

    pub fn answers(&self) -> usize {
        self.statuses.iter().sum()
    }

    fn random_runs(&mut self) {
        let mut random = Random::seeded(21);
        for _ in 0..RANDOM_RUNS {
            self.fresh(draws::sequence(&mut random, 7));
            for _ in 0..RANDOM_CALLS {
                let call = draws::call(&mut random, self.judge.state.last);
                self.ask(&call);
            }
        }
    }
}
