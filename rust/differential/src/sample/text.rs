//! Answers as text.

use crate::limited::Outcome;
use slatedb_oracle::bytes_range::BytesProbe;
use slatedb_oracle::comparable_range::ComparableProbe;
use std::cmp::Ordering;
use std::fmt::Write;
use std::ops::Bound::{self, Excluded, Included, Unbounded};

/// The tag and the payload of a bound's field.
pub fn parts(bound: Bound<&[u8]>) -> (u8, &[u8]) {
    match bound {
        Unbounded => (0x10, &[]),
        Included(key) => (0x11, key),
        Excluded(key) => (0x12, key),
    }
}

pub fn order(ordering: Ordering) -> String {
    format!("0 {}", ordering as i8)
}

pub fn test(holds: bool) -> String {
    format!("0 {}", u8::from(holds))
}

pub fn nothing() -> String {
    "0 -".to_string()
}

pub fn refused(status: u8) -> String {
    format!("{} -", status)
}

pub fn combined(range: Option<ComparableProbe<&[u8]>>) -> String {
    let plain = |bound| match bound {
        Included(&key) => Included(key),
        Excluded(&key) => Excluded(key),
        Unbounded => Unbounded,
    };
    match range {
        Some(range) => format!("0 {} {}", bound(plain(range.start())), bound(plain(range.end()))),
        None => nothing(),
    }
}

pub fn made(outcome: Outcome<BytesProbe>) -> String {
    match outcome {
        Ok(range) => format!("0 {} {}", bound(range.start()), bound(range.end())),
        Err(status) => refused(status),
    }
}

pub fn bound(bound: Bound<&[u8]>) -> String {
    let (tag, key) = parts(bound);
    match bound {
        Unbounded => format!("{:02x}", tag),
        _ => format!("{:02x}:{}", tag, hex(key)),
    }
}

pub fn hex(key: &[u8]) -> String {
    let mut text = String::new();
    for byte in key {
        write!(text, "{:02x}", byte).expect("a string takes all");
    }
    text
}
