//! The range part: the original and the port.

pub mod cases;
mod digest;
mod inputs;
mod original;
mod port;
