use crate::expected::{order, test};
use crate::tally::Tally;
use crate::ALPHABET;
use bytes::Bytes;
use differential::inputs::keys_up_to;
use stranvek_sys::boundary;

#[test]
fn every_pair_of_short_keys() {
    let keys = keys_up_to(3, &ALPHABET);
    assert_eq!(keys.len(), 156);
    let mut tally = Tally::default();
    for &a in &keys {
        for &b in &keys {
            let about = (a, b);
            let (x, y) = (Bytes::from_static(a), Bytes::from_static(b));
            tally.same(boundary::compare(a, b), order(x.cmp(&y)), &about);
            tally.same(boundary::equal(a, b), test(x == y), &about);
            tally.same(boundary::starts_with(a, b), test(x.starts_with(&y)), &about);
        }
    }
    tally.close(156 * 156 * 3);
}
