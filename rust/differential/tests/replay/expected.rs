//! What document 01 says that the program writes.

use judge::records::{next, Next};
use judge::Judge;
use stranvek::boundary::Answer;

#[derive(Clone, Debug, Default, PartialEq, Eq)]
pub struct Expected {
    /// An answer for each whole record.
    pub answers: Vec<Answer>,
    /// The offset of the record that ends the run.
    pub stop: Option<usize>,
}

pub fn expected(script: &[u8]) -> Expected {
    let mut judge = Judge::fresh(0);
    let mut expected = Expected::default();
    let mut at = 0;
    loop {
        match next(&script[at..]) {
            Next::End => return expected,
            Next::Stop => return Expected { stop: Some(at), ..expected },
            Next::Record { tag, payload } => {
                expected.answers.push(judge.answer_record(tag, payload));
                at += 3 + payload.len();
            }
        }
    }
}

impl Expected {
    /// "For each record one line: status, space, value in decimal."
    pub fn lines(&self) -> Vec<String> {
        let line = |answer: &Answer| format!("{} {}\n", answer.status, answer.value);
        self.answers.iter().map(line).collect()
    }

    pub fn text(&self) -> String {
        let stop = self.stop.map(|offset| format!("stop {}\n", offset));
        self.lines().into_iter().chain(stop).collect()
    }
}
