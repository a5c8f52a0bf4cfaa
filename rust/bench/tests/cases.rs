//! Every case that is timed is asked once, and the sides agree.

use bench::manager::{cases, growth::PANELS};
use bench::range::cases::range_part;
use bench::turns;
use differential::random::Random;

#[test]
fn the_sides_agree() {
    let random = &mut Random::seeded(3);
    let mut all = range_part(random);
    all.extend(cases::plans().iter().map(|plan| plan.case(random)).collect::<Vec<_>>());
    all.extend(PANELS.iter().flat_map(|panel| panel.cases(random)).collect::<Vec<_>>());
    assert_eq!(all.len(), 22 + 48 + 13);
    turns::run(&mut all, 0);
}
