//! The commands, as they are run.

use differential::emulated::{emulated, started};
use std::ffi::{OsStr, OsString};
use std::io::Write;
use std::path::Path;
use std::process::{Command, Output, Stdio};

const P: &[u8] = include_bytes!("../../../../scripts/p.txt");
const P_BYTES: &[u8] = include_bytes!("../../../../crates/replay/stdin");
const P_LINES: &str = include_str!("../../../../crates/replay/stdout");

/// The words that show what the replay program writes, which must have been made.
fn show_replay() -> Vec<OsString> {
    let program = Path::new(env!("CARGO_MANIFEST_DIR")).join("../../target/bin/replay");
    assert!(program.exists(), "target/bin/replay is not there: `tools/product replay` makes it");
    [vec![OsString::from("show")], started(program)].concat()
}

fn script(words: &[impl AsRef<OsStr>], input: &[u8]) -> Output {
    // A program that hangs is ended with the command that runs it, which makes a failure of it.
    let mut child = Command::new("timeout")
        .args(["--signal=KILL", "60"])
        .args(started(env!("CARGO_BIN_EXE_script")))
        .args(words)
        .stdin(Stdio::piped())
        .stdout(Stdio::piped())
        .stderr(Stdio::piped())
        .spawn()
        .expect("the command starts");
    // A usage error reads no input, so the write may fail.
    let _ = child.stdin.take().expect("it is piped").write_all(input);
    child.wait_with_output().expect("the command ends")
}

fn done(words: &[impl AsRef<OsStr>], input: &[u8]) -> Vec<u8> {
    let output = script(words, input);
    assert!(output.stderr.is_empty(), "{}", String::from_utf8_lossy(&output.stderr));
    assert_eq!(output.status.code(), Some(0));
    output.stdout
}

/// What a command says that fails and writes nothing to standard output.
fn failed(words: &[&str], input: &[u8], status: i32) -> String {
    let output = script(words, input);
    assert_eq!((output.status.code(), output.stdout.len()), (Some(status), 0));
    String::from_utf8(output.stderr).expect("text")
}

#[test]
fn bytes_and_text() {
    assert_eq!(done(&["bytes"], P), P_BYTES);
    let text = done(&["text"], P_BYTES);
    assert_eq!(done(&["bytes"], &text), P_BYTES);
    assert_eq!(done(&["text"], b""), b"");
    assert_eq!(done(&["text"], b"\x09\0\0\xff"), b"minimum\nbytes ff\n");
}

#[test]
fn faults_name_the_line() {
    let fault = "script: line 2: `begn` is no record\n";
    assert_eq!(failed(&["bytes"], b"begin A\nbegn B\n", 1), fault);
    assert_eq!(failed(&["show", "/bin/true"], b"begin A\nbegn B\n", 1), fault);
}

#[test]
fn bad_arguments() {
    let wrong: [&[&str]; 5] = [&[], &["byte"], &["bytes", "x"], &["text", "x"], &["show"]];
    for words in wrong {
        assert!(failed(words, b"", 2).starts_with("usage: script bytes"), "{:?}", words);
    }
}

#[test]
fn script_p_beside_its_lines() {
    let shown = done(&show_replay(), P);
    let shown = String::from_utf8(shown).expect("text");
    let text = String::from_utf8(done(&["text"], P_BYTES)).expect("text");
    let mut compared = 0;
    for ((row, record), line) in shown.lines().zip(text.lines()).zip(P_LINES.lines()) {
        assert_eq!(row, format!("{:10}    {}", record, line));
        compared += 1;
    }
    assert_eq!((compared, shown.lines().count()), (15, 15));
}

#[test]
fn what_stops_a_run_beside_its_line() {
    let show = show_replay();
    let shown = done(&show, b"minimum\nrecord 09 61\nbegin A\nbytes 0100\n");
    let due =
        "minimum         1 0\nrecord 09 61    2 0\nbegin A         0 0\nbytes 0100      stop 26\n";
    assert_eq!(String::from_utf8(shown).expect("text"), due);
    assert_eq!(done(&show, b"# nothing\n"), b"");
    // A record too wide for the column leaves the others where they are.
    let wide = format!("write A {}", "61".repeat(40));
    let shown =
        done(&show, format!("begin A\n{}\nbytes 0f{}\n", wide, "00".repeat(300_000)).as_bytes());
    let rows: Vec<&[u8]> = shown.split(|&byte| byte == b'\n').collect();
    assert_eq!(rows[0], b"begin A    0 0");
    assert_eq!(rows[1], format!("{}    0 1", wide).as_bytes());
    assert!(rows[2].ends_with(b"00    stop 81") && rows.len() == 4);
}

#[test]
fn a_program_with_words() {
    assert_eq!(done(&["show", "/bin/echo", "0", "7"], b"begin A\n"), b"begin A    0 7\n");
}

#[test]
fn programs_that_do_not_fit() {
    let due = "script: the program wrote 0 lines, and 15 are due\n";
    assert_eq!(failed(&["show", "/bin/true"], P, 1), due);
    assert_eq!(
        failed(&["show", "/bin/false"], P, 1),
        "script: /bin/false ended with exit status: 1\n"
    );
    let missing = failed(&["show", "/bin/no-such-program"], P, 1);
    // Under an emulator a missing program shows only in the status of the process that was to become it.
    let reason = if emulated() { " ended with exit status: 127" } else { ": " };
    let due = format!("script: /bin/no-such-program{}", reason);
    assert!(missing.starts_with(&due), "{}", missing);
}
