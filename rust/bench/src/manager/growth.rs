//! How the cost of a check grows.

use super::cases::{check, USUAL};
use super::scenes::Shape;
use crate::turns::{at, Case, ORIGINAL, PORT, SIMPLE};
use differential::random::Random;

pub struct Panel {
    pub title: &'static str,
    pub along: &'static str,
    pub points: &'static [usize],
    shape: fn(usize) -> Shape,
}

/// With 8 keys each, 128 entries would leave the transaction no mark.
const KEYS_AN_ENTRY: usize = 4;

pub const PANELS: [Panel; 2] = [
    Panel {
        title: "check, as entries grow",
        along: "entries of 4 keys, all above the start",
        points: &[8, 16, 32, 64, 96, 128],
        shape: |entries| Shape { entries, above: entries, keys_an_entry: KEYS_AN_ENTRY, ..USUAL },
    },
    Panel {
        title: "check, as the write set grows",
        along: "keys in the write set, over 96 entries of 8",
        points: &[1, 2, 4, 8, 16, 32, 64],
        shape: |writes| Shape { writes, reads: 0, ranges: 0, ..USUAL },
    },
];

/// A panel's times over the port's own at the first point: a line for each side, a number for each point.
pub type Curves = [Vec<f64>; 3];

impl Panel {
    pub fn cases(&self, random: &mut Random) -> Vec<Case> {
        self.points
            .iter()
            .map(|&point| check(self.title, (self.shape)(point)).case(random))
            .collect()
    }

    pub fn curves(&self, cases: &[Case]) -> Curves {
        let over_first = |side, case: &Case| at(&case.ratios(side, &cases[0], PORT), 0.5);
        let line = |side| cases.iter().map(|case| over_first(side, case)).collect();
        [PORT, ORIGINAL, SIMPLE].map(line)
    }
}
