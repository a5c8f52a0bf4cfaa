//! The program itself, and the ways to feed it.

use differential::emulated;
use std::io::{BufRead, BufReader, Read, Write};
use std::os::raw::c_uint;
use std::os::unix::io::OwnedFd;
use std::os::unix::net::UnixDatagram;
use std::os::unix::process::{CommandExt, ExitStatusExt};
use std::path::Path;
use std::process::{Child, ChildStdin, ChildStdout, Command, ExitStatus, Stdio};
use std::{fs, thread};

/// Seconds after which a run is ended by the system, so that a program that hangs is a failure.
const PATIENCE: c_uint = 60;

const SIGKILL: i32 = 9;
const SIGALRM: i32 = 14;

extern "C" {
    fn alarm(seconds: c_uint) -> c_uint;
}

fn start(input: Stdio, patience: c_uint) -> Child {
    let program = Path::new(env!("CARGO_MANIFEST_DIR")).join("../../target/bin/replay");
    assert!(program.exists(), "target/bin/replay is not there: `tools/product replay` makes it");
    let words = emulated::started(program);
    let mut command = Command::new(&words[0]);
    command.args(&words[1..]).stdin(input).stdout(Stdio::piped());
    // SAFETY: alarm touches no memory, and may be called between a fork and an exec; it outlasts the exec.
    unsafe {
        command.pre_exec(move || {
            alarm(patience);
            Ok(())
        });
    }
    command.spawn().expect("the replay program starts")
}

fn all_written(child: Child) -> String {
    let output = child.wait_with_output().expect("the replay program ends");
    succeeded(output.status);
    String::from_utf8(output.stdout).expect("lines of text")
}

fn succeeded(status: ExitStatus) {
    assert!(status.success(), "the replay program ended with {}", status);
}

/// What the program writes when the script comes by a pipe, which is then closed.
pub fn replay(script: &[u8]) -> String {
    let mut child = start(Stdio::piped(), PATIENCE);
    let mut input = child.stdin.take().expect("it is piped");
    thread::scope(|scope| {
        // A run that stops reads no further, so the write may fail.
        scope.spawn(move || input.write_all(script));
        all_written(child)
    })
}

/// The same from a file, so that each read fills what is left of the program's buffer.
pub fn replay_file(script: &[u8]) -> String {
    let path = Path::new(env!("CARGO_TARGET_TMPDIR")).join("script");
    fs::write(&path, script).expect("a file for the script");
    let file = fs::File::open(&path).expect("the file that was written");
    all_written(start(Stdio::from(file), PATIENCE))
}

/// The same when each read gets one of these pieces: a datagram is read whole and alone, and an empty one is the end.
pub fn replay_pieces(pieces: &[&[u8]]) -> String {
    let (ours, theirs) = UnixDatagram::pair().expect("a pair of sockets");
    let child = start(Stdio::from(OwnedFd::from(theirs)), PATIENCE);
    thread::scope(|scope| {
        scope.spawn(move || {
            // A run that stops leaves nobody to send to.
            let sent = pieces.iter().all(|piece| ours.send(piece).is_ok());
            sent && ours.send(&[]).is_ok()
        });
        all_written(child)
    })
}

/// A program that waits for more.
pub struct Waiting {
    child: Child,
    input: Option<ChildStdin>,
    output: BufReader<ChildStdout>,
}

impl Waiting {
    pub fn start() -> Self {
        Waiting::at_most(PATIENCE)
    }

    fn at_most(patience: c_uint) -> Self {
        let mut child = start(Stdio::piped(), patience);
        let input = child.stdin.take();
        let output = BufReader::new(child.stdout.take().expect("it is piped"));
        Waiting { child, input, output }
    }

    pub fn feed(&mut self, bytes: &[u8]) {
        let input = self.input.as_mut().expect("it is open");
        input.write_all(bytes).expect("the replay program reads");
    }

    /// The next line, as soon as it is there.
    pub fn line(&mut self) -> String {
        let mut line = String::new();
        self.output.read_line(&mut line).expect("a line");
        line
    }

    /// What comes after the last line that was read, when the program is killed.
    pub fn kill(mut self) -> String {
        self.child.kill().expect("the replay program still runs");
        let (rest, status) = self.ended();
        assert_eq!(status.signal(), Some(SIGKILL), "the replay program ended with {}", status);
        rest
    }

    /// The same when its input is closed.
    pub fn close(mut self) -> String {
        drop(self.input.take());
        let (rest, status) = self.ended();
        succeeded(status);
        rest
    }

    fn ended(mut self) -> (String, ExitStatus) {
        let mut rest = String::new();
        self.output.read_to_string(&mut rest).expect("lines of text");
        (rest, self.child.wait().expect("the replay program ends"))
    }
}

/// Its input stays open, so that it would wait for ever.
#[test]
fn a_run_that_hangs_is_ended() {
    let (rest, status) = Waiting::at_most(1).ended();
    assert_eq!((&rest[..], status.signal()), ("", Some(SIGALRM)));
}
