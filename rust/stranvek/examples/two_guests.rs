//! Two guests share a key store and both change the key `balance`. The manager decides whose commit stands.

use stranvek::{Error, KeyList, TransactionManager, TxnId, ROOM_SIZE};

const A: TxnId = TxnId::from_bytes([0xaa; 16]);
const B: TxnId = TxnId::from_bytes([0xbb; 16]);

/// Begins a guest's transaction, in which it reads the balance and means to write it.
fn begin(manager: &mut TransactionManager, name: &str, id: &TxnId) -> Result<(), Error> {
    let mut buffer = [0; 32];
    let mut balance = KeyList::new(&mut buffer);
    balance.push(b"balance").expect("a buffer that takes the key");
    let start = manager.new_transaction(id)?;
    let read = manager.track_read_keys(id, &balance)?;
    let written = manager.track_write_keys(id, &balance)?;
    println!("Guest {} begins at sequence {}.", name, start);
    println!("  It tracks balance: {} key read and {} key to be written.", read, written);
    Ok(())
}

/// Commits a guest at a sequence if nobody else's commit is in its way; whether it did.
fn try_commit(
    manager: &mut TransactionManager,
    name: &str,
    id: &TxnId,
    seq: u64,
) -> Result<bool, Error> {
    print!("Guest {} wants to commit at {}. ", name, seq);
    if manager.check_has_conflict(id)? {
        println!("The check says conflict: what it tracks was written after it began.");
        return Ok(false);
    }
    println!("The check says no conflict.");
    let committed = manager.track_recent_committed_txn(id, seq)?;
    match committed.was_active {
        true => {
            println!("  It commits: the last sequence is now {}.", committed.last_committed_seq)
        }
        false => println!("  It was not active, so no write of it is recorded."),
    }
    Ok(committed.was_active)
}

fn main() -> Result<(), Error> {
    let mut room = [0; ROOM_SIZE];
    let mut manager = TransactionManager::new(&mut room, 100)?;
    println!("The host has lent a room of {} bytes.", manager.room().len());
    begin(&mut manager, "A", &A)?;
    begin(&mut manager, "B", &B)?;
    try_commit(&mut manager, "A", &A, 101)?;
    if !try_commit(&mut manager, "B", &B, 102)? {
        let dropped = manager.drop_txn(&B)?;
        println!("  It is dropped ({} old commits remembered).", dropped.entries_kept);
        println!("  It tries again, from what stands now.");
        begin(&mut manager, "B", &B)?;
        try_commit(&mut manager, "B", &B, 102)?;
    }
    match manager.min_active_seq()? {
        Some(start) => println!("Someone is still active, since sequence {}.", start),
        None => println!("Nobody is active any more."),
    }
    Ok(())
}
