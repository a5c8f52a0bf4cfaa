//! The stored samples are the ones that are made here; crates/sample and crates/runs replay them without any Rust.

mod ranges;
mod runs;

use std::fs;
use std::path::Path;

fn stored(name: &str) -> Vec<u8> {
    let crates = Path::new(env!("CARGO_MANIFEST_DIR")).join("../../crates");
    fs::read(crates.join(name)).expect("a stored file")
}
