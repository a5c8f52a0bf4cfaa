//! What the tests are given to call with.

use stranvek::{KeyList, TxnId, ROOM_SIZE};

pub const A: TxnId = TxnId::from_bytes([0x0a; 16]);
pub const B: TxnId = TxnId::from_bytes([0x0b; 16]);
pub const C: TxnId = TxnId::from_bytes([0x0c; 16]);
pub const D: TxnId = TxnId::from_bytes([0x0d; 16]);

/// A room of any content.
pub fn room() -> Vec<u8> {
    vec![0x77; ROOM_SIZE]
}

/// What is asked with a list of some keys, in a buffer that it fills.
pub fn with<K: AsRef<[u8]>, T>(keys: &[K], ask: impl FnOnce(&KeyList) -> T) -> T {
    let mut buffer = vec![0x77; keys.iter().map(|key| 3 + key.as_ref().len()).sum()];
    let mut list = KeyList::new(&mut buffer);
    for key in keys {
        list.push(key.as_ref()).expect("the buffer's length is the list's");
    }
    ask(&list)
}

/// The n-th of as many keys of one length as two bytes can tell apart.
pub fn key(n: usize, length: usize) -> Vec<u8> {
    let mut key = vec![0x61; length];
    key[..2].copy_from_slice(&(n as u16).to_be_bytes());
    key
}

pub fn keys(count: usize, length: usize) -> Vec<Vec<u8>> {
    (0..count).map(|n| key(n, length)).collect()
}
