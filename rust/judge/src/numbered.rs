//! Keys that a number tells apart, of any length from two bytes on: many of them fill a room.

use crate::call::list_of;

/// The number, and then a's.
pub fn key(n: usize, length: usize) -> Vec<u8> {
    let mut key = vec![0x61; length];
    key[..2].copy_from_slice(&(n as u16).to_be_bytes());
    key
}

/// The list of so many of them.
pub fn keys(from: usize, count: usize, length: usize) -> Vec<u8> {
    list_of(&(from..from + count).map(|n| key(n, length)).collect::<Vec<_>>())
}
