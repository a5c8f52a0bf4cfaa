//! The program's output held to what is expected, and how much was compared.

use crate::expected::{expected, Expected};
use crate::program::{replay, replay_pieces};
use std::fmt::{self, Display, Formatter};

#[derive(Default)]
pub struct Compared {
    pub scripts: usize,
    pub lines: usize,
    pub stops: usize,
    pub statuses: [usize; 8],
}

impl Compared {
    /// Replays the script whole.
    pub fn script(&mut self, script: &[u8]) {
        self.hold(script, &expected(script), &replay(script));
    }

    /// Replays the script in pieces of these lengths, the last one again and again, each of which one read gets.
    pub fn pieces(&mut self, script: &[u8], lengths: &[usize]) {
        let mut pieces = Vec::new();
        let mut left = script;
        let mut lengths = lengths.iter();
        let mut length = 1;
        while !left.is_empty() {
            length = *lengths.next().unwrap_or(&length);
            let (piece, rest) = left.split_at(length.min(left.len()));
            pieces.push(piece);
            left = rest;
        }
        self.hold(script, &expected(script), &replay_pieces(&pieces));
    }

    pub fn hold(&mut self, script: &[u8], due: &Expected, written: &str) {
        let shown = &script[..script.len().min(2_000)];
        assert_eq!(written, due.text(), "{} bytes: {:02x?}", script.len(), shown);
        self.scripts += 1;
        self.lines += written.lines().count();
        self.stops += usize::from(due.stop.is_some());
        due.answers.iter().for_each(|answer| self.statuses[usize::from(answer.status)] += 1);
    }
}

impl Display for Compared {
    fn fmt(&self, f: &mut Formatter) -> fmt::Result {
        let Compared { scripts, lines, stops, statuses } = self;
        write!(f, "{} scripts, {} lines, {} stops, ", scripts, lines, stops)?;
        write!(f, "statuses 0 to 7: {:?}", statuses)
    }
}
