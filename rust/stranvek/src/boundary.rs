//! The calls as they are, number for number: each takes the room, ids, key lists and bounds as bytes and answers a status
//! and a value. Tests and other languages' bindings use it; a host in Rust has [`TransactionManager`](crate::TransactionManager).
//!
//! No call asks anything of its arguments: any bytes may be passed as a room, an id, a list or bounds.
//!
//! ```
//! use stranvek::boundary::{self, Answer};
//!
//! let mut room = vec![0; boundary::room_size()];
//! assert_eq!(boundary::min_active_seq(&room), Answer { status: 7, value: 0 });
//! assert_eq!(boundary::new(&mut room, 41), Answer { status: 0, value: 41 });
//! assert_eq!(boundary::new_transaction(&mut room, b"no id"), Answer { status: 2, value: 0 });
//! assert_eq!(boundary::new_transaction(&mut room, &[1; 16]), Answer { status: 0, value: 41 });
//! ```
//!
//! This is the one place of unsafe code. One reason makes every call here safe: each pointer goes with the length of the
//! slice that it came from, and that slice is lent through the call, a room that is written as `&mut`. The library reads no
//! other memory (that is proved), writes none but its answer and the room, and keeps nothing. The helpers are private and are
//! handed the archive's functions alone.
#![allow(unsafe_code)]

/// What a call answers: the value is the call's own where the status is [`DONE`](crate::numbers::DONE), and for commit and drop
/// where it is [`ABSENT`](crate::numbers::ABSENT) too; else it is 0.
#[repr(C)]
#[derive(Clone, Copy, Debug, PartialEq, Eq)]
pub struct Answer {
    /// One of the statuses in [`numbers`](crate::numbers).
    pub status: u8,
    /// What the call's own line says.
    pub value: u64,
}

// A line for each argument of the library's own signature: a slice passes as its pointer and its length.
#[rustfmt::skip]
extern "C" {
    fn stranvek_room_size() -> usize;
    fn stranvek_new(room: *mut u8, room_len: usize, last: u64) -> Answer;
    fn stranvek_new_transaction(
        room: *mut u8, room_len: usize,
        id: *const u8, id_len: usize,
    ) -> Answer;
    fn stranvek_drop_txn(
        room: *mut u8, room_len: usize,
        id: *const u8, id_len: usize,
    ) -> Answer;
    fn stranvek_track_write_keys(
        room: *mut u8, room_len: usize,
        id: *const u8, id_len: usize,
        keys: *const u8, keys_len: usize,
    ) -> Answer;
    fn stranvek_track_read_keys(
        room: *mut u8, room_len: usize,
        id: *const u8, id_len: usize,
        keys: *const u8, keys_len: usize,
    ) -> Answer;
    fn stranvek_track_read_range(
        room: *mut u8, room_len: usize,
        id: *const u8, id_len: usize,
        range: *const u8, range_len: usize,
    ) -> Answer;
    fn stranvek_check_has_conflict(
        room: *const u8, room_len: usize,
        id: *const u8, id_len: usize,
    ) -> Answer;
    fn stranvek_track_recent_committed_txn(
        room: *mut u8, room_len: usize,
        id: *const u8, id_len: usize,
        seq: u64,
    ) -> Answer;
    fn stranvek_track_recent_committed_write_batch(
        room: *mut u8, room_len: usize,
        keys: *const u8, keys_len: usize,
        seq: u64,
    ) -> Answer;
    fn stranvek_min_active_seq(room: *const u8, room_len: usize) -> Answer;
}

type InRoom = unsafe extern "C" fn(*mut u8, usize, *const u8, usize) -> Answer;
type InRoomAt = unsafe extern "C" fn(*mut u8, usize, *const u8, usize, u64) -> Answer;
type InRoomWith =
    unsafe extern "C" fn(*mut u8, usize, *const u8, usize, *const u8, usize) -> Answer;

fn in_room(call: InRoom, room: &mut [u8], bytes: &[u8]) -> Answer {
    // SAFETY: each pointer and the length after it are one lent slice's, the room's a `&mut` one.
    unsafe { call(room.as_mut_ptr(), room.len(), bytes.as_ptr(), bytes.len()) }
}

fn in_room_at(call: InRoomAt, room: &mut [u8], bytes: &[u8], seq: u64) -> Answer {
    // SAFETY: as in `in_room`.
    unsafe { call(room.as_mut_ptr(), room.len(), bytes.as_ptr(), bytes.len(), seq) }
}

#[rustfmt::skip]
fn in_room_with(call: InRoomWith, room: &mut [u8], id: &[u8], bytes: &[u8]) -> Answer {
    // SAFETY: as in `in_room`.
    unsafe {
        call(room.as_mut_ptr(), room.len(), id.as_ptr(), id.len(), bytes.as_ptr(), bytes.len())
    }
}

/// How many bytes a room takes.
pub fn room_size() -> usize {
    // SAFETY: nothing is passed.
    unsafe { stranvek_room_size() }
}

/// Makes a room fresh at a last committed number, whatever it held; answers the number.
pub fn new(room: &mut [u8], last: u64) -> Answer {
    // SAFETY: the pointer and the length are one `&mut` slice's.
    unsafe { stranvek_new(room.as_mut_ptr(), room.len(), last) }
}

/// Begins a transaction; answers its start.
pub fn new_transaction(room: &mut [u8], id: &[u8]) -> Answer {
    in_room(stranvek_new_transaction, room, id)
}

/// Removes a transaction if it is active, and prunes either way; answers how many entries are kept.
pub fn drop_txn(room: &mut [u8], id: &[u8]) -> Answer {
    in_room(stranvek_drop_txn, room, id)
}

/// Adds a list's keys to a write set; answers how many are newly stored.
pub fn track_write_keys(room: &mut [u8], id: &[u8], keys: &[u8]) -> Answer {
    in_room_with(stranvek_track_write_keys, room, id, keys)
}

/// Adds a list's keys to a read set; answers how many are newly stored.
pub fn track_read_keys(room: &mut [u8], id: &[u8], keys: &[u8]) -> Answer {
    in_room_with(stranvek_track_read_keys, room, id, keys)
}

/// Appends a range, given as two fields, to a transaction's ranges; answers 1.
pub fn track_read_range(room: &mut [u8], id: &[u8], range: &[u8]) -> Answer {
    in_room_with(stranvek_track_read_range, room, id, range)
}

/// Whether a later commit or batch wrote what the transaction tracks; answers 1 for a conflict, 0 for none.
pub fn check_has_conflict(room: &[u8], id: &[u8]) -> Answer {
    // SAFETY: each pointer and the length after it are one lent slice's; the room is only read.
    unsafe { stranvek_check_has_conflict(room.as_ptr(), room.len(), id.as_ptr(), id.len()) }
}

/// Commits a transaction at a sequence; answers the last committed number after it, which an id that is not active advances too.
pub fn track_recent_committed_txn(room: &mut [u8], id: &[u8], seq: u64) -> Answer {
    in_room_at(stranvek_track_recent_committed_txn, room, id, seq)
}

/// Records a list's keys as written at a sequence outside any transaction; answers the last committed number after it.
pub fn track_recent_committed_write_batch(room: &mut [u8], keys: &[u8], seq: u64) -> Answer {
    in_room_at(stranvek_track_recent_committed_write_batch, room, keys, seq)
}

/// Answers the smallest start of the active transactions.
pub fn min_active_seq(room: &[u8]) -> Answer {
    // SAFETY: the pointer and the length are one lent slice's; the room is only read.
    unsafe { stranvek_min_active_seq(room.as_ptr(), room.len()) }
}
