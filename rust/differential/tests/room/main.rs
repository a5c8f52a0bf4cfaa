//! The manager's calls on a lent room, through the boundary, against the unchanged Rust.

#[path = "../shared/guarded.rs"]
mod guarded;

mod ceilings;
mod edges;
mod hostile;
mod interface;
mod memory;
mod random;
mod short;
mod stack;
