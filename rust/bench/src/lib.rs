//! The original, the port and, for the manager, simple Rust on the same inputs, timed by turns. Run it by `./bench`.
#![forbid(unsafe_code)]

pub mod manager;
pub mod range;
pub mod report;
pub mod turns;
