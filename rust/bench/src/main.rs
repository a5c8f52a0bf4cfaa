//! Measures and prints the tables of ratios; the plot goes to the file that is named, if one is.
#![forbid(unsafe_code)]

use bench::manager::{cases, growth::PANELS, plot};
use bench::range::cases::range_part;
use bench::turns::Case;
use bench::{report, turns};
use differential::random::Random;
use std::{env, fs};

const RANGE_SWEEPS: usize = 40;
const MANAGER_SWEEPS: usize = 20;

fn main() {
    let mut range = range_part(&mut Random::seeded(15));
    turns::run(&mut range, RANGE_SWEEPS);
    println!("{}", report::range(&range));

    let random = &mut Random::seeded(16);
    let plans = cases::plans();
    let mut measured: Vec<Case> = plans.iter().map(|plan| plan.case(random)).collect();
    for panel in &PANELS {
        measured.extend(panel.cases(random));
    }
    turns::run(&mut measured, MANAGER_SWEEPS);
    println!("{}", report::manager(&plans, &measured));

    let mut rest = &measured[plans.len()..];
    let curves = PANELS.map(|panel| {
        let (cases, after) = rest.split_at(panel.points.len());
        rest = after;
        panel.curves(cases)
    });
    println!("{}", report::growth(&curves));
    if let Some(path) = env::args().nth(1) {
        fs::write(&path, plot::svg(&curves)).expect("the plot's file can be written");
    }
}
