//! The fixed sample of the range part that crates/sample replays: queries, each an op and its fields, and a line of answer for each.
//!
//! The answers are the unchanged Rust's. One rule in them is not: document 01 adds the limit of 512 bytes, so where a key,
//! prefix or joined key is longer, making a range or an increment is answered by status 4, before any status 5.

mod chosen;
mod text;

use crate::fields::field;
use crate::inputs::KeyRange;
use crate::limited::{self, owned};
use slatedb_oracle::bytes_range::BytesProbe;
use slatedb_oracle::comparable_range::ComparableProbe;
use std::ops::Bound::{self, Excluded, Unbounded};
use text::{bound, combined, hex, made, nothing, order, parts, refused, test};

const KEY: u8 = 0x4b;

/// What the replaying program has place for.
const QUERY_BYTES: usize = 60_000;

#[derive(Default)]
pub struct Sample {
    pub queries: Vec<u8>,
    pub answers: String,
    pub records: usize,
}

impl Sample {
    pub fn whole() -> Self {
        let mut sample = Sample::default();
        chosen::short(&mut sample);
        chosen::long(&mut sample);
        assert!(sample.queries.len() <= QUERY_BYTES, "the queries outgrow their reader");
        sample
    }

    fn record(&mut self, op: u8, fields: &[(u8, &[u8])], answer: String) {
        self.queries.push(op);
        for &(tag, payload) in fields {
            self.queries.extend(field(tag, payload));
        }
        self.answers.push_str(&answer);
        self.answers.push('\n');
        self.records += 1;
    }

    fn keys(&mut self, a: &[u8], b: &[u8]) {
        let fields = [(KEY, a), (KEY, b)];
        self.record(0x01, &fields, order(a.cmp(b)));
        self.record(0x02, &fields, test(a == b));
        self.record(0x03, &fields, test(a.starts_with(b)));
    }

    /// The order of two starts is that of two ranges that have them, and so for ends.
    fn bounds(&mut self, a: Bound<&[u8]>, b: Bound<&[u8]>) {
        let fields = [parts(a), parts(b)];
        let (x, y) = (ComparableProbe::new(a, a), ComparableProbe::new(b, b));
        self.record(0x04, &fields, order(x.compare_start(&y)));
        self.record(0x05, &fields, order(x.compare_end(&y)));
    }

    fn range(&mut self, range: KeyRange) {
        let fields = [parts(range.0), parts(range.1)];
        let probe = BytesProbe::of(owned(range.0), owned(range.1));
        let point = match probe.as_point() {
            Some(key) => format!("0 {:02x}:{}", KEY, hex(key)),
            None => nothing(),
        };
        self.record(0x07, &fields, test(ComparableProbe::new(range.0, range.1).non_empty()));
        self.record(0x0c, &fields, point);
        self.record(0x0e, &fields, made(limited::new_range(range.0, range.1)));
    }

    fn key_in_range(&mut self, range: KeyRange, key: &[u8]) {
        let fields = [parts(range.0), parts(range.1), (KEY, key)];
        let probe = ComparableProbe::new(range.0, range.1);
        self.record(0x08, &fields, test(probe.contains(&key)));
    }

    fn ranges(&mut self, a: KeyRange, b: KeyRange) {
        let fields = [parts(a.0), parts(a.1), parts(b.0), parts(b.1)];
        let (x, y) = (ComparableProbe::new(a.0, a.1), ComparableProbe::new(b.0, b.1));
        self.record(0x06, &fields, order(x.compare(&y)));
        self.record(0x09, &fields, test(x.are_adjacent(&y)));
        self.record(0x0a, &fields, combined(x.intersect(&y)));
        self.record(0x0b, &fields, combined(x.union(&y)));
    }

    fn prefix(&mut self, prefix: &[u8]) {
        let increment = match limited::increment_prefix(prefix) {
            Ok(Some(key)) => format!("0 {}", bound(Excluded(&key))),
            Ok(None) => format!("0 {}", bound(Unbounded)),
            Err(status) => refused(status),
        };
        self.record(0x0d, &[(KEY, prefix)], increment);
        self.record(0x0f, &[(KEY, prefix)], made(limited::from_prefix(prefix)));
    }

    fn subrange(&mut self, prefix: &[u8], subrange: KeyRange) {
        let fields = [(KEY, prefix), parts(subrange.0), parts(subrange.1)];
        let range = limited::from_prefix_and_subrange(prefix, subrange.0, subrange.1);
        self.record(0x10, &fields, made(range));
    }
}
