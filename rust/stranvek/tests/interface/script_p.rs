//! Document 01's script P, call by call, against the lines of the replay program.

use crate::given::{room, with, A, B, C, D};
use std::fs;
use std::path::Path;
use stranvek::{Committed, Dropped, Error, TransactionManager};

fn line(answer: Result<u64, Error>) -> String {
    match answer {
        Ok(value) => format!("0 {}", value),
        Err(error) => format!("{} 0", error.status()),
    }
}

/// The line of a call that acts whether or not the id is active.
fn ended(was_active: bool, value: u64) -> String {
    format!("{} {}", if was_active { 0 } else { 1 }, value)
}

fn commit(answer: Result<Committed, Error>) -> String {
    let committed = answer.expect("a commit");
    ended(committed.was_active, committed.last_committed_seq)
}

fn dropped(answer: Result<Dropped, Error>) -> String {
    let dropped = answer.expect("a drop");
    ended(dropped.was_active, dropped.entries_kept)
}

fn minimum(answer: Result<Option<u64>, Error>) -> String {
    let start = answer.expect("a minimum");
    ended(start.is_some(), start.unwrap_or(0))
}

#[test]
fn the_lines_of_script_p() {
    let mut room = room();
    let mut manager = TransactionManager::new(&mut room, 0).expect("a room");
    let lines = [
        line(manager.new_transaction(&A)),
        line(manager.new_transaction(&B)),
        line(with(&["k"], |list| manager.track_write_keys(&A, list))),
        line(with(&["k"], |list| manager.track_read_keys(&B, list))),
        line(manager.check_has_conflict(&B).map(u64::from)),
        commit(manager.track_recent_committed_txn(&A, 7)),
        line(manager.check_has_conflict(&B).map(u64::from)),
        line(manager.new_transaction(&C)),
        line(with(&["k"], |list| manager.track_write_keys(&C, list))),
        line(manager.check_has_conflict(&C).map(u64::from)),
        dropped(manager.drop_txn(&B)),
        minimum(manager.min_active_seq()),
        commit(manager.track_recent_committed_txn(&D, 9)),
        dropped(manager.drop_txn(&C)),
        minimum(manager.min_active_seq()),
    ];
    let path = Path::new(env!("CARGO_MANIFEST_DIR")).join("../../crates/replay/stdout");
    let due = fs::read_to_string(path).expect("the replay program's lines");
    assert_eq!(lines.to_vec(), due.lines().collect::<Vec<_>>());
}
