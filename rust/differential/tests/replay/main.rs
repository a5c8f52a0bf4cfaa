//! The replay program, run on scripts of every kind, against the unchanged Rust under document 01's table.

mod compared;
mod expected;
mod program;

mod cuts;
mod damage;
mod edges;
mod full;
mod heads;
mod long;
mod pieces;
mod whole;
