//! Scripts between text and bytes, and a program's lines beside the records that they answer.
#![forbid(unsafe_code)]

use scripts::{beside, parse, run, Script};
use std::env;
use std::ffi::{OsStr, OsString};
use std::io::{self, Read, Write};
use std::path::Path;
use std::process::ExitCode;

const USAGE: &str = "\
usage: script bytes < TEXT      the script's bytes
       script text < SCRIPT     the script's text
       script show PROGRAM [WORD..] < TEXT
                                each record beside the line that the program writes for it
";

enum Command<'a> {
    Bytes,
    Text,
    Show(&'a Path, &'a [OsString]),
}

fn command(words: &[OsString]) -> Option<Command<'_>> {
    match words {
        [word] if word == OsStr::new("bytes") => Some(Command::Bytes),
        [word] if word == OsStr::new("text") => Some(Command::Text),
        [word, program, words @ ..] if word == OsStr::new("show") => {
            Some(Command::Show(Path::new(program), words))
        }
        _ => None,
    }
}

/// All of the output, so that a refusal writes none.
fn output(command: Command, input: &[u8]) -> Result<Vec<u8>, String> {
    let parsed = || parse(input).map_err(|fault| fault.to_string());
    match command {
        Command::Bytes => Ok(parsed()?.bytes()),
        Command::Text => Ok(Script::read(input).to_string().into_bytes()),
        Command::Show(program, words) => {
            let script = parsed()?;
            Ok(beside(&script, &run(program, words, &script.bytes())?)?.into_bytes())
        }
    }
}

fn serve(command: Command) -> Result<(), String> {
    let mut input = Vec::new();
    io::stdin().read_to_end(&mut input).map_err(|error| error.to_string())?;
    let output = output(command, &input)?;
    io::stdout().write_all(&output).map_err(|error| error.to_string())
}

fn main() -> ExitCode {
    let words: Vec<OsString> = env::args_os().skip(1).collect();
    let command = match command(&words) {
        Some(command) => command,
        None => {
            eprint!("{}", USAGE);
            return ExitCode::from(2);
        }
    };
    match serve(command) {
        Ok(()) => ExitCode::SUCCESS,
        Err(reason) => {
            eprintln!("script: {}", reason);
            ExitCode::FAILURE
        }
    }
}
