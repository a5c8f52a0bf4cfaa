//! Ranges of every kind: what they hold by Rust's own `contains`, and keys that are too long.

use crate::given::{key, room, with, A};
use std::ops::Bound::{self, Excluded, Included, Unbounded};
use std::ops::RangeBounds;
use stranvek::{boundary, Error, TransactionManager, TxnId};

const KEYS: [&[u8]; 7] = [b"", b"a", b"a\0", b"ab", b"b", b"c", b"\xff\xff"];

type Ends<'k> = (Bound<&'k [u8]>, Bound<&'k [u8]>);

/// Document 01's rule.
fn empty(range: Ends) -> bool {
    match range {
        (Unbounded, _) | (_, Unbounded) => false,
        (Included(a), Included(b)) => a > b,
        (Included(a) | Excluded(a), Included(b) | Excluded(b)) => a >= b,
    }
}

fn bounds() -> Vec<Bound<&'static [u8]>> {
    let included = KEYS.iter().map(|key| Included(*key));
    let excluded = KEYS.iter().map(|key| Excluded(*key));
    included.chain(excluded).chain([Unbounded]).collect()
}

/// Whether a key that is written after a range was tracked is a conflict.
fn found<'k>(range: impl RangeBounds<&'k [u8]>, written: &[u8]) -> Result<bool, Error> {
    let mut room = room();
    let mut manager = TransactionManager::new(&mut room, 7)?;
    manager.new_transaction(&A)?;
    manager.track_read_range(&A, range)?;
    with(&[written], |list| manager.track_recent_committed_write_batch(list, 8))?;
    manager.check_has_conflict(&A)
}

#[test]
fn a_range_holds_what_rust_says_or_is_empty_by_the_rule() {
    let (mut refused, mut compared) = (0, 0);
    for start in bounds() {
        for end in bounds() {
            let range: Ends = (start, end);
            for key in KEYS {
                let due =
                    if empty(range) { Err(Error::EmptyRange) } else { Ok(range.contains(&key)) };
                assert_eq!(found(range, key), due, "{:?} {:?}", range, key);
                refused += u64::from(due.is_err());
                compared += 1;
            }
        }
    }
    assert_eq!((compared, refused), (15 * 15 * 7, (21 + 3 * 28) * 7));
}

#[test]
fn each_of_rusts_forms() {
    let (a, b) = (b"a".as_slice(), b"b".as_slice());
    let mut compared = 0;
    for key in KEYS {
        assert_eq!(found(a..b, key), Ok((a..b).contains(&key)));
        assert_eq!(found(a..=b, key), Ok((a..=b).contains(&key)));
        assert_eq!(found(a.., key), Ok((a..).contains(&key)));
        assert_eq!(found(..b, key), Ok((..b).contains(&key)));
        assert_eq!(found(..=b, key), Ok((..=b).contains(&key)));
        assert_eq!(found(.., key), Ok(true));
        assert_eq!(found((Excluded(a), Unbounded), key), Ok(key > a));
        compared += 7;
    }
    assert_eq!(compared, 49);
}

/// What the library itself answers to a range whose keys are passed whole.
fn whole(room: &[u8], id: &TxnId, range: Ends) -> Option<Error> {
    let field = |bound: Bound<&[u8]>| match bound {
        Unbounded => vec![0x10, 0, 0],
        Included(key) => [&[0x11], &(key.len() as u16).to_be_bytes()[..], key].concat(),
        Excluded(key) => [&[0x12], &(key.len() as u16).to_be_bytes()[..], key].concat(),
    };
    let fields = [field(range.0), field(range.1)].concat();
    let answer = boundary::track_read_range(&mut room.to_vec(), id.as_bytes(), &fields);
    Error::from_status(answer.status)
}

#[test]
fn a_long_key_is_answered_as_the_whole_key_would_be() {
    let mut room = room();
    let mut manager = TransactionManager::new(&mut room, 7).expect("a room");
    manager.new_transaction(&A).expect("a transaction");
    let (mut compared, mut too_long) = (0, 0);
    for length in [511, 512, 513, 514, 1_000, 65_535] {
        let long = [&key(0, length)[..length - 1], b"z"].concat();
        let cut = &long[..513.min(length)];
        let others =
            [Unbounded, Included(&b""[..]), Excluded(b"\xff"), Included(cut), Excluded(cut)];
        for other in others {
            for long in [Included(&long[..]), Excluded(&long)] {
                for range in [(long, other), (other, long), (long, long)] {
                    for id in [&A, &TxnId::from([1; 16])] {
                        let due = whole(manager.room(), id, range);
                        assert_eq!(manager.track_read_range(id, range).err(), due, "{}", length);
                        too_long += u64::from(due == Some(Error::LongKey));
                        compared += 1;
                    }
                }
            }
        }
    }
    assert_eq!((compared, too_long), (6 * 60, 4 * 60));
}

#[test]
fn a_key_that_no_field_can_hold_is_too_long() {
    let mut room = room();
    let mut manager = TransactionManager::new(&mut room, 7).expect("a room");
    manager.new_transaction(&A).expect("a transaction");
    let long = key(0, 65_536 + 5);
    let long = long.as_slice();
    for range in [(Included(long), Unbounded), (Unbounded, Excluded(long))] {
        assert_eq!(manager.track_read_range(&A, range), Err(Error::LongKey));
    }
}
