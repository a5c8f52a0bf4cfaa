//! The archive and the replay program are for x86-64. On another processor the tests are built for it too and run under an emulator,
//! which cargo's own variable names: tools/target.

use std::env;
use std::ffi::{OsStr, OsString};
use std::fmt::Display;
use std::ops::Div;
use std::thread;

const RUNNER: &str = "CARGO_TARGET_X86_64_UNKNOWN_LINUX_GNU_RUNNER";

/// What the random draws of the longest tests are divided by under an emulator, and nowhere else.
const DIVISOR: u8 = 10;

/// The emulator and its options; nothing where x86-64 is the machine's own.
fn emulator() -> Vec<OsString> {
    let words = env::var(RUNNER).unwrap_or_default();
    words.split_whitespace().map(OsString::from).collect()
}

pub fn emulated() -> bool {
    !emulator().is_empty()
}

/// The words that start a program for x86-64, which an emulated process cannot start by its name alone.
pub fn started(program: impl AsRef<OsStr>) -> Vec<OsString> {
    let mut words = emulator();
    words.push(program.as_ref().to_os_string());
    words
}

/// How many of its random draws a test makes: all, or under an emulator a part, which is then printed.
pub fn draws<N: Copy + Display + From<u8> + Div<Output = N>>(all: N) -> N {
    if !emulated() {
        return all;
    }
    let part = all / N::from(DIVISOR);
    let test = thread::current();
    let test = test.name().unwrap_or("a test");
    println!("{} runs under an emulator: {} random draws of {}", test, part, all);
    part
}
