//! A script's records beside the lines that a program writes for them.

use crate::script::Script;
use std::ffi::OsString;
use std::io::{self, ErrorKind, Write};
use std::path::Path;
use std::process::{Command, Stdio};
use std::thread;

/// A longer record does not push the answers of the others away.
const WIDEST: usize = 60;

/// What a program, started with some words, writes that is given the bytes, or why there is nothing to show.
pub fn run(program: &Path, words: &[OsString], bytes: &[u8]) -> Result<String, String> {
    let failed = |error: io::Error| format!("{}: {}", program.display(), error);
    let mut child = Command::new(program)
        .args(words)
        .stdin(Stdio::piped())
        .stdout(Stdio::piped())
        .spawn()
        .map_err(failed)?;
    let mut input = child.stdin.take().expect("it is piped");
    // Both at once, since a program that waits to write does not read.
    let (fed, output) = thread::scope(|scope| {
        let feeder = scope.spawn(move || input.write_all(bytes));
        let output = child.wait_with_output();
        (feeder.join().expect("a write does not panic"), output)
    });
    match fed {
        // A run that stops early leaves bytes unread.
        Err(error) if error.kind() != ErrorKind::BrokenPipe => return Err(failed(error)),
        _ => {}
    }
    let output = output.map_err(failed)?;
    if !output.status.success() {
        return Err(format!("{} ended with {}", program.display(), output.status));
    }
    String::from_utf8(output.stdout).map_err(|_| format!("{} wrote no text", program.display()))
}

/// Each record's text and the line for it, and what ends the run beside the line that says so.
pub fn beside(script: &Script, output: &str) -> Result<String, String> {
    let mut texts: Vec<String> = script.records.iter().map(ToString::to_string).collect();
    texts.extend(script.rest_text());
    let lines: Vec<&str> = output.lines().collect();
    if lines.len() != texts.len() {
        return Err(format!(
            "the program wrote {} lines, and {} are due",
            lines.len(),
            texts.len()
        ));
    }
    let short = texts.iter().map(String::len).filter(|&length| length <= WIDEST);
    let width = short.max().unwrap_or(0);
    let pairs = texts.iter().zip(lines);
    Ok(pairs.map(|(text, line)| format!("{:width$}    {}\n", text, line, width = width)).collect())
}
