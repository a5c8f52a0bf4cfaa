//! The manager three times: the port, the original and simple Rust with sorted vectors.

pub mod cases;
pub mod growth;
mod original;
pub mod plot;
pub mod port;
mod scenes;
pub mod simple;
#[cfg(test)]
mod tests;
mod timed;

pub use timed::Plan;

use scenes::{Keys, Range};

pub type Id = [u8; 16];

/// The transaction whose calls are timed.
const MEASURED: Id = [0x80; 16];

/// Never begun.
const NOBODY: Id = [0xff; 16];

/// What calls have left, as far as each side tells it: the marks of the measured transaction that were added since `keep` and that
/// it still has, the entries, the last number.
#[derive(Clone, Copy)]
struct Account {
    marks: u64,
    entries: u64,
    last: u64,
}

/// A side, under the Rust's names, on arguments that hold each side's own form. No call that is timed may be refused.
trait Manager {
    fn new_transaction(&mut self, id: &Id) -> u64;
    fn track_write_keys(&mut self, id: &Id, keys: &Keys);
    fn track_read_keys(&mut self, id: &Id, keys: &Keys);
    fn track_read_range(&mut self, id: &Id, range: &Range);
    fn check_has_conflict(&mut self, id: &Id) -> bool;
    fn track_recent_committed_txn(&mut self, id: &Id, seq: u64);
    fn track_recent_committed_write_batch(&mut self, keys: &Keys, seq: u64);
    fn min_active_seq(&mut self) -> u64;

    /// Remembers what stands now.
    fn keep(&mut self);

    /// Puts back what was kept, after calls on the measured transaction that left the last number as it was.
    fn put_back(&mut self);

    fn account(&mut self) -> Account;
}

/// A fresh one of each: the port, the original, the simple one.
fn sides() -> [fn() -> Box<dyn Manager>; 3] {
    [
        || Box::new(port::Port::fresh()),
        || Box::new(original::Original::fresh()),
        || Box::new(simple::Sorted::fresh()),
    ]
}
