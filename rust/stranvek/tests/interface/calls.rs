//! What the calls answer when they are done, and what they leave of the room.

use crate::given::{room, with, A, B, C, D};
use stranvek::{boundary, Committed, Dropped, TransactionManager, ROOM_SIZE};

#[test]
fn the_published_size() {
    assert_eq!(boundary::room_size(), ROOM_SIZE);
}

#[test]
fn tracks_answer_what_is_newly_stored() {
    let mut room = room();
    let mut manager = TransactionManager::new(&mut room, 7).expect("a room");
    assert_eq!(manager.new_transaction(&A), Ok(7));
    assert_eq!(with(&["a", "b", "a"], |list| manager.track_write_keys(&A, list)), Ok(2));
    assert_eq!(with(&["b", "c"], |list| manager.track_write_keys(&A, list)), Ok(1));
    assert_eq!(with(&["b", "c"], |list| manager.track_read_keys(&A, list)), Ok(2));
    assert_eq!(with::<&str, _>(&[], |list| manager.track_read_keys(&A, list)), Ok(0));
    assert_eq!(manager.track_read_range(&A, ..), Ok(1));
    assert_eq!(manager.track_read_range(&A, ..), Ok(1));
}

#[test]
fn a_check_finds_writes_after_the_start_alone() {
    let mut room = room();
    let mut manager = TransactionManager::new(&mut room, 7).expect("a room");
    for id in [A, B, C] {
        assert_eq!(manager.new_transaction(&id), Ok(7));
    }
    with(&["k"], |list| {
        assert_eq!(manager.track_write_keys(&A, list), Ok(1));
        assert_eq!(manager.track_read_keys(&B, list), Ok(1));
        assert_eq!(manager.track_recent_committed_write_batch(list, 7), Ok(7));
        assert_eq!(manager.check_has_conflict(&A), Ok(false));
        assert_eq!(manager.track_recent_committed_write_batch(list, 8), Ok(8));
    });
    assert_eq!(manager.check_has_conflict(&A), Ok(true));
    assert_eq!(manager.check_has_conflict(&B), Ok(true));
    assert_eq!(manager.check_has_conflict(&C), Ok(false));
}

#[test]
fn a_commit_keeps_the_larger_number() {
    let mut room = room();
    let mut manager = TransactionManager::new(&mut room, 7).expect("a room");
    assert_eq!(manager.new_transaction(&A), Ok(7));
    let committed = |was_active, last_committed_seq| Committed { was_active, last_committed_seq };
    assert_eq!(manager.track_recent_committed_txn(&A, 5), Ok(committed(true, 7)));
    assert_eq!(manager.track_recent_committed_txn(&A, 5), Ok(committed(false, 7)));
    assert_eq!(manager.track_recent_committed_txn(&A, u64::MAX), Ok(committed(false, u64::MAX)));
    assert_eq!(manager.new_transaction(&A), Ok(u64::MAX));
}

#[test]
fn a_drop_prunes_whether_the_id_is_active_or_not() {
    let mut room = room();
    let mut manager = TransactionManager::new(&mut room, 0).expect("a room");
    assert_eq!(manager.new_transaction(&A), Ok(0));
    for seq in [1, 2] {
        assert_eq!(
            with(&["k"], |list| manager.track_recent_committed_write_batch(list, seq)),
            Ok(seq)
        );
    }
    assert_eq!(manager.new_transaction(&B), Ok(2));
    assert_eq!(manager.min_active_seq(), Ok(Some(0)));
    assert!(manager.track_recent_committed_txn(&A, 3).expect("a commit").was_active);
    assert_eq!(manager.min_active_seq(), Ok(Some(2)));
    // The entries at 1, 2 and 3 are there, of which the one at 1 is of no use.
    assert_eq!(manager.drop_txn(&D), Ok(Dropped { was_active: false, entries_kept: 2 }));
    assert_eq!(manager.drop_txn(&B), Ok(Dropped { was_active: true, entries_kept: 0 }));
    assert_eq!(manager.min_active_seq(), Ok(None));
}

#[test]
fn bytes_beyond_the_size_are_untouched() {
    let mut room: Vec<u8> = (0..ROOM_SIZE + 300).map(|n| n as u8).collect();
    let beyond = room[ROOM_SIZE..].to_vec();
    let mut manager = TransactionManager::new(&mut room, 7).expect("a room");
    for id in [A, B] {
        assert_eq!(manager.new_transaction(&id), Ok(7));
        assert_eq!(with(&["k", "l"], |list| manager.track_write_keys(&id, list)), Ok(2));
        assert_eq!(manager.track_read_range(&id, ..), Ok(1));
    }
    assert_eq!(with(&["m"], |list| manager.track_recent_committed_write_batch(list, 8)), Ok(8));
    assert!(manager.track_recent_committed_txn(&A, 9).expect("a commit").was_active);
    assert!(manager.drop_txn(&B).expect("a drop").was_active);
    assert_eq!(manager.room().len(), ROOM_SIZE + 300);
    assert!(room[ROOM_SIZE..] == beyond);
}

#[test]
fn a_room_is_opened_as_it_was_left() {
    let mut room = room();
    let mut manager = TransactionManager::new(&mut room, 7).expect("a room");
    assert_eq!(manager.new_transaction(&A), Ok(7));
    assert_eq!(with(&["k"], |list| manager.track_write_keys(&A, list)), Ok(1));
    let mut kept = manager.room().to_vec();
    let before = kept.clone();
    let mut manager = TransactionManager::open(&mut kept).expect("the record of a state");
    assert!(manager.room() == before, "opening changed the room");
    assert_eq!(with(&["k"], |list| manager.track_recent_committed_write_batch(list, 8)), Ok(8));
    assert_eq!(manager.check_has_conflict(&A), Ok(true));
    let shown = format!("TransactionManager {{ room_len: {} }}", ROOM_SIZE);
    assert_eq!(format!("{:?}", manager), shown);
}
