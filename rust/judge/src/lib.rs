//! What judges the manager, for every test that asks it something: the unchanged Rust under document 01's table of statuses,
//! calls and script records as values, a reader and a writer of rooms that share no line with the library, random draws, and
//! the fixed sample of runs.
#![forbid(unsafe_code)]

pub mod both;
pub mod call;
pub mod draws;
pub mod forms;
mod judge;
pub mod met;
pub mod numbered;
pub mod reader;
pub mod records;
pub mod runs;
pub mod totals;
pub mod writer;

pub use crate::judge::Judge;
