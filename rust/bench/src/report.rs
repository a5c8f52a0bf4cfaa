//! The measured ratios as tables.

use crate::manager::cases::walk_of;
use crate::manager::growth::{Curves, PANELS};
use crate::manager::Plan;
use crate::turns::{at, Case, ORIGINAL, PORT, SIMPLE};

const RANGE: &str = "\
### The range part

Each number is the port's time over the original's on the same inputs: below 1 the port is faster. It is the median over rounds
in which both answer all of a case's inputs by turns.

- The original compares keys by `memcmp`, clones them by counting references, and allocates those that it makes; what it answers
  is dropped in its turn.
- The port answers by value, through `extern \"C\"` calls that are not inlined and the wrappers of `rust/sys`, and allocates nothing.
- Nothing is cleared between turns: both read the same memory, which is warm.

| call | inputs | port / original | middle half of the rounds |
|---|---|---|---|
";

const MANAGER: &str = "\
### The manager

Each number is the port's time over the original's, over the simple Rust's, and over that of its own `min_active_seq` on rooms as full,
which is little but the validating walk: medians over rounds taken by turns, with the middle half of the rounds.

| calls | case | keys | others active | port / original | middle half | port / simple | middle half | port / its walk |
|---|---|---|---|---|---|---|---|---|
";

const GROWTH: &str = "\
### How a check grows

Each number is a time over the port's own at the table's first point, the median over the rounds; `docs/benchmarks.svg` draws them. Keys of
16 random bytes, one other active.
";

pub fn range(cases: &[Case]) -> String {
    let row = |case: &Case| {
        let cells = median_and_half(&case.ratios(PORT, case, ORIGINAL));
        format!("| `{}` | {} | {} |\n", case.call, case.inputs, cells)
    };
    RANGE.to_string() + &cases.iter().map(row).collect::<String>()
}

/// The first cases are the plans'.
pub fn manager(plans: &[Plan], cases: &[Case]) -> String {
    let row = |(plan, case): (&Plan, &Case)| {
        let original = median_and_half(&case.ratios(PORT, case, ORIGINAL));
        let simple = median_and_half(&case.ratios(PORT, case, SIMPLE));
        let walks = two_digits(at(&case.ratios(PORT, &cases[walk_of(plan, plans)], PORT), 0.5));
        let (keys, others) = plan.form();
        let words = format!("{} | {} | {} | {}", plan.call, plan.what, keys, others);
        format!("| {} | {} | {} | {} |\n", words, original, simple, walks)
    };
    MANAGER.to_string() + &plans.iter().zip(cases).map(row).collect::<String>()
}

pub fn growth(curves: &[Curves; 2]) -> String {
    let tables = PANELS.iter().zip(curves).map(|(panel, curves)| {
        let head = format!("\n| {} | port | original | simple |\n|---|---|---|---|\n", panel.along);
        let row = |(place, point): (usize, &usize)| {
            let [port, original, simple] =
                [PORT, ORIGINAL, SIMPLE].map(|side| two_digits(curves[side][place]));
            format!("| {} | {} | {} | {} |\n", point, port, original, simple)
        };
        head + &panel.points.iter().enumerate().map(row).collect::<String>()
    });
    GROWTH.to_string() + &tables.collect::<String>()
}

fn median_and_half(ratios: &[f64]) -> String {
    let [lower, median, upper] = [0.25, 0.5, 0.75].map(|place| two_digits(at(ratios, place)));
    format!("{} | {} to {}", median, lower, upper)
}

fn two_digits(ratio: f64) -> String {
    let rounded: f64 = format!("{:.1e}", ratio).parse().expect("it was a number");
    let decimals = (1.0 - rounded.log10().floor()).max(0.0) as usize;
    format!("{:.*}", decimals, rounded)
}
