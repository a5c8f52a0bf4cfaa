//! One question to several sides, by turns, so that what slows the machine slows all of them.

use std::time::{Duration, Instant};

const ROUNDS_A_SWEEP: usize = 10;

/// Far above the clock's own step.
const LEAST_TURN: Duration = Duration::from_micros(200);

/// The places of the sides in a case.
pub const PORT: usize = 0;
pub const ORIGINAL: usize = 1;
pub const SIMPLE: usize = 2;

/// Answers every input so many times: what that took, and the sum of the digests of the answers, which are the same each time.
pub type Turn = Box<dyn FnMut(usize) -> (Duration, u64)>;

struct Side {
    turn: Turn,
    passes: usize,
    times: Vec<f64>,
}

pub struct Case {
    pub call: &'static str,
    pub inputs: String,
    sides: Vec<Side>,
    answered: Option<u64>,
}

/// Takes each case's rounds in small parts over the whole run, so that a busy moment of the machine falls on all cases. Without a
/// sweep each case is asked all the same, and the answers are compared.
pub fn run(cases: &mut [Case], sweeps: usize) {
    cases.iter_mut().for_each(Case::warm);
    for _ in 0..sweeps {
        cases.iter_mut().for_each(Case::sweep);
    }
}

impl Case {
    pub fn new(call: &'static str, inputs: impl Into<String>, sides: Vec<Turn>) -> Case {
        let side = |turn| Side { turn, passes: 1, times: Vec::new() };
        let sides = sides.into_iter().map(side).collect();
        Case { call, inputs: inputs.into(), sides, answered: None }
    }

    /// One side's time over that of a side of the same or another case, in each round, ascending.
    pub fn ratios(&self, side: usize, base: &Case, base_side: usize) -> Vec<f64> {
        let times = self.sides[side].times.iter().zip(&base.sides[base_side].times);
        let mut ratios: Vec<f64> = times.map(|(time, base)| time / base).collect();
        ratios.sort_by(f64::total_cmp);
        ratios
    }

    /// Asks each side until its turn is not too short to time.
    fn warm(&mut self) {
        for at in 0..self.sides.len() {
            while self.turn(at) < LEAST_TURN {
                self.sides[at].passes *= 2;
            }
        }
    }

    fn sweep(&mut self) {
        for round in 0..ROUNDS_A_SWEEP {
            self.round(round % self.sides.len());
        }
    }

    /// Every side's turn, from one of them on.
    fn round(&mut self, first: usize) {
        let count = self.sides.len();
        for at in (first..count).chain(0..first) {
            let took = self.turn(at).as_secs_f64();
            let side = &mut self.sides[at];
            side.times.push(took / side.passes as f64);
        }
    }

    /// What one side's turn took; its answers must be those of the first turn of all.
    fn turn(&mut self, at: usize) -> Duration {
        let side = &mut self.sides[at];
        let (took, digest) = (side.turn)(side.passes);
        let expected = *self.answered.get_or_insert(digest);
        assert_eq!(digest, expected, "{}, {}: the sides differ", self.call, self.inputs);
        took
    }
}

/// The ratio that stands so far up the order of size: at 0.5 the median.
pub fn at(ascending: &[f64], place: f64) -> f64 {
    ascending[((ascending.len() - 1) as f64 * place) as usize]
}

/// Asks inputs that need nothing put back, all passes under one clock. The compiler does not see through a pass, so that none can be
/// left out; `std::hint::black_box` is newer than Debian's compiler.
pub fn asking<I: 'static>(
    inputs: &'static [I],
    mut answer: impl FnMut(&I) -> u64 + 'static,
) -> Turn {
    let mut pass: Box<dyn FnMut() -> u64> =
        Box::new(move || inputs.iter().fold(0, |sum: u64, input| sum.wrapping_add(answer(input))));
    Box::new(move |passes| {
        let start = Instant::now();
        let digest = pass();
        let same = (1..passes).filter(|_| pass() == digest).count() + 1;
        let took = start.elapsed();
        assert_eq!(same, passes, "a pass that is repeated answers the same");
        (took, digest)
    })
}
