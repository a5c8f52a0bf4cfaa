//! What the differential tests and the sample share: what is asked, and the unchanged Rust's answers under the added limit; and for
//! every test, how it runs on another processor.
#![forbid(unsafe_code)]

pub mod emulated;
pub mod fields;
pub mod inputs;
pub mod limited;
pub mod random;
pub mod sample;
