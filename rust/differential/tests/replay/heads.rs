//! Heads and payloads at their limits, and payloads that are no call.

use crate::compared::Compared;
use crate::program::replay;
use judge::call::{field, id_of, list_of};
use judge::numbered::keys;
use judge::records::PAYLOAD_LIMIT;

/// A head that says a length, and what stands after it.
fn headed(tag: u8, length: u16, after: &[u8]) -> Vec<u8> {
    [&[tag], &length.to_be_bytes()[..], after].concat()
}

#[test]
fn the_longest_payload() {
    let mut compared = Compared::default();
    for tag in 1..=9 {
        let fits = headed(tag, 32_768, &[0x41; PAYLOAD_LIMIT]);
        assert_eq!(replay(&fits), "2 0\n");
        compared.script(&[&fits[..], &[0x09, 0, 0]].concat());
        for length in [32_769, 40_000, u16::MAX] {
            let above = headed(tag, length, &vec![0x41; usize::from(length)]);
            assert_eq!(replay(&above), "stop 0\n");
            compared.script(&[&fits[..], &above].concat());
        }
    }
    assert_eq!((compared.scripts, compared.lines, compared.stops), (36, 72, 27));
}

/// A list of one key that fills the payload is refused for its key; one of many keys is served.
#[test]
fn lists_that_fill_a_payload() {
    let begin = field(0x01, &id_of(0x41));
    let one = list_of(&[vec![0x61; PAYLOAD_LIMIT - 16 - 3]]);
    let many = [keys(0, 1_023, 29), list_of(&[[0x61; 13]])].concat();
    let record = |list: &[u8]| field(0x02, &[&id_of(0x41), list].concat());
    assert_eq!((record(&one).len(), record(&many).len()), (3 + PAYLOAD_LIMIT, 3 + PAYLOAD_LIMIT));
    assert_eq!(replay(&[begin.clone(), record(&one)].concat()), "0 0\n4 0\n");
    assert_eq!(replay(&[begin, record(&many)].concat()), "0 0\n0 1024\n");
}

#[test]
fn cut_heads() {
    for tag in 1..=9 {
        assert_eq!(replay(&[tag]), "stop 0\n");
        assert_eq!(replay(&[tag, 0]), "stop 0\n");
        assert_eq!(replay(&[tag, 0, 1]), "stop 0\n");
        assert_eq!(replay(&[0x09, 0, 0, tag]), "1 0\nstop 3\n");
        assert_eq!(replay(&[0x09, 0, 0, tag, 0xff]), "1 0\nstop 3\n");
    }
}

/// A payload that is a call of each tag.
fn payloads() -> [(u8, Vec<u8>); 9] {
    let id = id_of(0x41);
    let list = list_of(&["k"]);
    let bounds = [field(0x11, b"a"), field(0x12, b"c")].concat();
    let seq = 7u64.to_be_bytes();
    [
        (0x01, id.clone()),
        (0x02, [&id[..], &list].concat()),
        (0x03, [&id[..], &list].concat()),
        (0x04, [&id[..], &bounds].concat()),
        (0x05, id.clone()),
        (0x06, [&id[..], &seq].concat()),
        (0x07, [&seq[..], &list].concat()),
        (0x08, id),
        (0x09, Vec::new()),
    ]
}

/// A payload that is cut or has a leftover is status 2, and the run goes on.
#[test]
fn payloads_that_are_no_call() {
    let mut compared = Compared::default();
    let mut refused = 0;
    let mut lengths = 0;
    for (tag, payload) in payloads() {
        let cut = (0..payload.len()).map(|length| payload[..length].to_vec());
        let leftover = [0x00, 0x4b, 0x10].map(|byte| [&payload[..], &[byte]].concat());
        for wrong in cut.chain(leftover) {
            // A list may end after its id or sequence, and is empty then.
            let empty_list = matches!((tag, wrong.len()), (2 | 3, 16) | (7, 8));
            let script = [field(tag, &wrong), field(0x09, &[])].concat();
            if !empty_list {
                assert_eq!(replay(&script), "2 0\n1 0\n", "{:02x?}", script);
                refused += 1;
            }
            compared.script(&script);
        }
        lengths += payload.len();
    }
    println!("{}, {} refused", compared, refused);
    assert_eq!((compared.scripts, refused), (lengths + 27, lengths + 27 - 3));
    assert_eq!((compared.statuses[2], compared.stops), (refused, 0));
}
