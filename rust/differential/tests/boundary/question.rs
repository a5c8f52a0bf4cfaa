//! One set of arguments for every function of the boundary, and the sixteen answers.

use crate::expected;
use crate::tally::Tally;
use stranvek_sys::answers::{Compared, MadeKey, MadeKeys, NewRange, Pair, RawRange, Told};
use stranvek_sys::boundary;

#[derive(Clone, Copy, Debug)]
pub struct Question<'a> {
    pub first: RawRange<'a>,
    pub second: RawRange<'a>,
    pub key: &'a [u8],
    pub prefix: &'a [u8],
}

pub struct Answers {
    /// compare, compare_start, compare_end and compare_range.
    pub orders: [Compared; 4],
    /// equal, starts_with, non_empty, contains, are_adjacent and as_point.
    pub tests: [Told; 6],
    /// intersect and union.
    pub pairs: [Pair; 2],
    pub increment_prefix: MadeKey,
    pub new_range: NewRange,
    pub from_prefix: MadeKeys,
    pub from_prefix_and_subrange: MadeKeys,
}

impl Answers {
    /// How many functions have answered.
    pub const COUNT: usize = 16;
}

impl Question<'_> {
    pub fn library(&self) -> Answers {
        let Question { first, second, key, prefix } = *self;
        Answers {
            orders: [
                boundary::compare(key, prefix),
                boundary::compare_start(first.start, second.start),
                boundary::compare_end(first.end, second.end),
                boundary::compare_range(first, second),
            ],
            tests: [
                boundary::equal(key, prefix),
                boundary::starts_with(key, prefix),
                boundary::non_empty(first),
                boundary::contains(first, key),
                boundary::are_adjacent(first, second),
                boundary::as_point(first),
            ],
            pairs: [boundary::intersect(first, second), boundary::union(first, second)],
            increment_prefix: boundary::increment_prefix(prefix),
            new_range: boundary::new_range(first),
            from_prefix: boundary::from_prefix(prefix),
            from_prefix_and_subrange: boundary::from_prefix_and_subrange(prefix, first),
        }
    }

    pub fn oracle(&self) -> Answers {
        let Question { first, second, key, prefix } = *self;
        let (x, y) = (expected::probe(first), expected::probe(second));
        Answers {
            orders: [
                expected::order(key.cmp(prefix)),
                expected::order(x.compare_start(&y)),
                expected::order(x.compare_end(&y)),
                expected::order(x.compare(&y)),
            ],
            tests: [
                expected::test(key == prefix),
                expected::test(key.starts_with(prefix)),
                expected::test(x.non_empty()),
                expected::contains(first, key),
                expected::test(x.are_adjacent(&y)),
                expected::as_point(first),
            ],
            pairs: [expected::intersect(&x, &y), expected::union(&x, &y)],
            increment_prefix: expected::increment_prefix(prefix),
            new_range: expected::new_range(first),
            from_prefix: expected::from_prefix(prefix),
            from_prefix_and_subrange: expected::from_prefix_and_subrange(prefix, first),
        }
    }

    /// Compares the answers one by one.
    pub fn same(&self, tally: &mut Tally, ours: &Answers, theirs: &Answers) {
        for (ours, theirs) in ours.orders.iter().zip(&theirs.orders) {
            tally.same(ours, theirs, self);
        }
        for (ours, theirs) in ours.tests.iter().zip(&theirs.tests) {
            tally.same(ours, theirs, self);
        }
        for (ours, theirs) in ours.pairs.iter().zip(&theirs.pairs) {
            tally.same(ours, theirs, self);
        }
        tally.same(&ours.increment_prefix, &theirs.increment_prefix, self);
        tally.same(&ours.new_range, &theirs.new_range, self);
        tally.same(&ours.from_prefix, &theirs.from_prefix, self);
        let (ours, theirs) = (&ours.from_prefix_and_subrange, &theirs.from_prefix_and_subrange);
        tally.same(ours, theirs, self);
    }
}
