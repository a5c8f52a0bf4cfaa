//! A fuzzer's bytes as steps on a room, each held to the unchanged Rust as the tests of rooms hold theirs.
#![forbid(unsafe_code)]

pub mod decoded;
pub mod input;
pub mod played;
