//! Document 01's pairs at each edge, answered by the proved archive.

use std::cmp::Ordering;
use std::fmt::Write;
use std::ops::Bound::{self, Excluded, Included, Unbounded};
use stranvek_sys::{
    compare, contains, from_prefix_and_subrange, increment_prefix, non_empty, union, KeyRange,
};

fn hex(key: &[u8]) -> String {
    let mut text = String::from("[");
    for (i, byte) in key.iter().enumerate() {
        let gap = if i == 0 { "" } else { " " };
        write!(text, "{}{:02x}", gap, byte).expect("a string takes it");
    }
    text + "]"
}

fn bound(bound: Bound<&[u8]>) -> String {
    match bound {
        Included(key) => format!("included {}", hex(key)),
        Excluded(key) => format!("excluded {}", hex(key)),
        Unbounded => String::from("unbounded"),
    }
}

fn range(range: KeyRange) -> String {
    format!("{} to {}", bound(range.0), bound(range.1))
}

fn show(question: String, answer: impl std::fmt::Display) {
    println!("{:<72} {}", question, answer);
}

fn compared(a: &[u8], b: &[u8]) {
    let answer = match compare(a, b) {
        Ordering::Less => "before",
        Ordering::Equal => "the same",
        Ordering::Greater => "after",
    };
    show(format!("{} against {}", hex(a), hex(b)), answer);
}

fn joined(a: KeyRange, b: KeyRange) {
    let answer = union(a, b).map_or(String::from("no union"), range);
    show(format!("{} | {}", range(a), range(b)), answer);
}

fn main() {
    compared(&[0x61], &[0x61, 0x00]);
    compared(&[0x61, 0x00], &[0x62]);
    for prefix in [&[0x61, 0xff][..], &[0xff, 0xff]] {
        let answer = increment_prefix(prefix).expect("a short prefix");
        show(format!("the increment of {}", hex(prefix)), bound(answer.bound()));
    }
    let gap = (Excluded(&[0x61][..]), Excluded(&[0x61, 0x00][..]));
    show(format!("{} is empty by the rule", range(gap)), !non_empty(gap));
    show(format!("{} holds [61 00]", range(gap)), contains(gap, &[0x61, 0x00]));
    let first = (Included(&[0x61][..]), Included(&[0x62][..]));
    joined(first, (Excluded(&[0x62]), Excluded(&[0x63])));
    joined(first, (Included(&[0x62, 0x00]), Excluded(&[0x63])));
    for prefix in [&[0x61][..], &[]] {
        let below: KeyRange = (Unbounded, Excluded(&[]));
        let question = format!("prefix {}, {}", hex(prefix), range(below));
        match from_prefix_and_subrange(prefix, below) {
            Ok((start, end)) => show(question, range((start.bound(), end.bound()))),
            Err(refused) => show(question, format!("refused: {:?}", refused)),
        }
    }
}
