//! Each error, met where document 01's table gives its status, with the room unchanged.

use crate::given::{key, keys, room, with, A, B, C};
use std::collections::HashSet;
use std::fmt::Debug;
use stranvek::{Error, Keys, TransactionManager, TxnId, KEY_LIMIT, ROOM_SIZE};

/// Asks for what must be refused.
fn refused<T: Debug + PartialEq>(
    manager: &mut TransactionManager,
    error: Error,
    ask: impl FnOnce(&mut TransactionManager) -> Result<T, Error>,
) {
    let before = manager.room().to_vec();
    assert_eq!(ask(manager), Err(error));
    assert!(manager.room() == before, "the room changed with {:?}", error);
}

/// Asks what each of the three calls that take a list says to it.
fn refused_list(manager: &mut TransactionManager, error: Error, list: Keys) {
    refused(manager, error, |manager| manager.track_write_keys(&A, list));
    refused(manager, error, |manager| manager.track_read_keys(&A, list));
    refused(manager, error, |manager| manager.track_recent_committed_write_batch(list, 9));
}

#[test]
fn not_active() {
    let mut room = room();
    let mut manager = TransactionManager::new(&mut room, 7).expect("a room");
    refused(&mut manager, Error::Absent, |manager| manager.check_has_conflict(&A));
    refused(&mut manager, Error::Absent, |manager| manager.track_read_range(&A, ..));
    with(&["k"], |list| {
        refused(&mut manager, Error::Absent, |manager| manager.track_write_keys(&A, list));
        refused(&mut manager, Error::Absent, |manager| manager.track_read_keys(&A, list));
    });
}

#[test]
fn badly_formed() {
    let mut room = room();
    let mut manager = TransactionManager::new(&mut room, 7).expect("a room");
    manager.new_transaction(&A).expect("a transaction");
    for list in [&b"K"[..], b"K\0", b"K\0\x02k", b"L\0\x01k", b"K\0\x01kK"] {
        refused_list(&mut manager, Error::Malformed, Keys::encoded(list));
    }
    for length in [0, 15, 17] {
        assert_eq!(TxnId::try_from(&vec![1; length][..]), Err(Error::Malformed));
    }
}

#[test]
fn already_active() {
    let mut room = room();
    let mut manager = TransactionManager::new(&mut room, 7).expect("a room");
    manager.new_transaction(&A).expect("a transaction");
    refused(&mut manager, Error::Again, |manager| manager.new_transaction(&A));
    assert_eq!(manager.new_transaction(&B), Ok(7));
}

#[test]
fn key_too_long() {
    let mut room = room();
    let mut manager = TransactionManager::new(&mut room, 7).expect("a room");
    manager.new_transaction(&A).expect("a transaction");
    let long = key(0, KEY_LIMIT + 1);
    with(&[&b"k"[..], &long], |list| {
        refused_list(&mut manager, Error::LongKey, list.into());
    });
    let long = long.as_slice();
    refused(&mut manager, Error::LongKey, |manager| manager.track_read_range(&A, long..));
    refused(&mut manager, Error::LongKey, |manager| manager.track_read_range(&A, ..long));
    let longest = &long[..KEY_LIMIT];
    assert_eq!(with(&[longest], |list| manager.track_write_keys(&A, list)), Ok(1));
    assert_eq!(manager.track_read_range(&A, longest..), Ok(1));
}

#[test]
fn empty_range() {
    let mut room = room();
    let mut manager = TransactionManager::new(&mut room, 7).expect("a room");
    manager.new_transaction(&A).expect("a transaction");
    let (a, b) = (b"a".as_slice(), b"b".as_slice());
    refused(&mut manager, Error::EmptyRange, |manager| manager.track_read_range(&A, a..a));
    refused(&mut manager, Error::EmptyRange, |manager| manager.track_read_range(&A, b..=a));
    assert_eq!(manager.track_read_range(&A, a..=a), Ok(1));
}

#[test]
fn no_room_left() {
    let mut room = room();
    let mut manager = TransactionManager::new(&mut room, 7).expect("a room");
    for n in 0..32 {
        assert_eq!(manager.new_transaction(&TxnId::from([n; 16])), Ok(7));
    }
    refused(&mut manager, Error::Full, |manager| manager.new_transaction(&[99; 16].into()));
    with(&keys(1_025, 2), |list| {
        refused_list(&mut manager, Error::Full, list.into());
    });
    with(&keys(128, 2), |list| assert_eq!(manager.track_write_keys(&A, list), Ok(128)));
    with(&keys(896, 2), |list| assert_eq!(manager.track_write_keys(&B, list), Ok(896)));
    refused(&mut manager, Error::Full, |manager| manager.track_read_range(&C, ..));
    for n in 0..128 {
        let none = Keys::encoded(&[]);
        assert_eq!(manager.track_recent_committed_write_batch(none, 8 + n), Ok(8 + n));
    }
    refused(&mut manager, Error::Full, |manager| manager.track_recent_committed_txn(&A, 9));
}

#[test]
fn no_state() {
    let mut room = room();
    assert_eq!(TransactionManager::open(&mut room).unwrap_err(), Error::NoState);
    let short = &mut room[..ROOM_SIZE - 1];
    assert_eq!(TransactionManager::new(short, 7).unwrap_err(), Error::NoState);
    assert!(room.iter().all(|byte| *byte == 0x77), "a refusal wrote into the room");
    TransactionManager::new(&mut room, 7).expect("a room");
    assert_eq!(TransactionManager::open(&mut room[..ROOM_SIZE - 1]).unwrap_err(), Error::NoState);
}

/// Document 01's table.
const TABLE: [(u8, Error); 7] = [
    (1, Error::Absent),
    (2, Error::Malformed),
    (3, Error::Again),
    (4, Error::LongKey),
    (5, Error::EmptyRange),
    (6, Error::Full),
    (7, Error::NoState),
];

#[test]
fn each_error_has_its_status_and_its_sentence() {
    for status in 0..=u8::MAX {
        let error = TABLE.iter().find(|(number, _)| *number == status).map(|(_, error)| *error);
        assert_eq!(Error::from_status(status), error);
        assert_eq!(error.map(Error::status), error.map(|_| status));
    }
    let sentences: HashSet<String> = TABLE.iter().map(|(_, error)| error.to_string()).collect();
    assert_eq!(sentences.len(), TABLE.len());
}

#[cfg(feature = "std")]
#[test]
fn with_the_feature_they_are_errors_of_std() {
    let thrown: [Box<dyn std::error::Error>; 2] =
        [Box::new(Error::NoState), Box::new(stranvek::PushError::BufferFull)];
    let said = [Error::NoState.to_string(), stranvek::PushError::BufferFull.to_string()];
    assert_eq!(thrown.map(|error| error.to_string()), said);
}
