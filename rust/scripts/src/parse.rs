//! Text read as a script.

use crate::record::{Key, Record};
use crate::script::{begins_whole, is_tag, Script, PAYLOAD_LIMIT};
use crate::words::{read_end, read_hex, read_id, read_key, read_sequence, read_start, Reason};
use std::fmt::{self, Display, Formatter};
use std::str::{self, SplitWhitespace};

/// The first line that is wrong, counted from 1, and why.
#[derive(Clone, Debug, PartialEq, Eq)]
pub struct Fault {
    pub line: usize,
    pub reason: Reason,
}

impl Display for Fault {
    fn fmt(&self, f: &mut Formatter) -> fmt::Result {
        write!(f, "line {}: {}", self.line, self.reason)
    }
}

pub fn parse(text: &[u8]) -> Result<Script, Fault> {
    let mut script = Script::default();
    for (n, line) in text.split(|&byte| byte == b'\n').enumerate() {
        add(&mut script, line).map_err(|reason| Fault { line: n + 1, reason })?;
    }
    Ok(script)
}

/// Adds what a line says, which is nothing where it is empty or a comment alone.
fn add(script: &mut Script, line: &[u8]) -> Result<(), Reason> {
    let line = str::from_utf8(line).map_err(|_| "not UTF-8")?;
    let said = line.split('#').next().unwrap_or_default();
    let mut words = Words(said.split_whitespace());
    let name = match words.0.next() {
        Some(name) => name,
        None => return Ok(()),
    };
    if !script.rest.is_empty() {
        return Err("nothing may follow `bytes`, which end the run".into());
    }
    match name {
        "bytes" => script.rest = rest(&mut words)?,
        _ => script.records.push(record(name, &mut words)?),
    }
    words.end()
}

fn record(name: &str, words: &mut Words) -> Result<Record, Reason> {
    let record = match name {
        "begin" => Record::Begin(words.read("an id", read_id)?),
        "write" => Record::Write(words.read("an id", read_id)?, words.keys()?),
        "read" => Record::Read(words.read("an id", read_id)?, words.keys()?),
        "range" => Record::Range(
            words.read("an id", read_id)?,
            words.read("a start", read_start)?,
            words.read("an end", read_end)?,
        ),
        "check" => Record::Check(words.read("an id", read_id)?),
        "commit" => {
            Record::Commit(words.read("an id", read_id)?, words.read("a sequence", read_sequence)?)
        }
        "batch" => Record::Batch(words.read("a sequence", read_sequence)?, words.keys()?),
        "drop" => Record::Drop(words.read("an id", read_id)?),
        "minimum" => Record::Minimum,
        "record" => {
            let tag = words.read("a tag", read_tag)?;
            Record::read(tag, &words.read("a payload", read_hex)?)
        }
        _ => return Err(format!("`{}` is no record", name)),
    };
    match record.payload().len() {
        length if length > PAYLOAD_LIMIT => {
            Err(format!("a payload of {} bytes, above {}", length, PAYLOAD_LIMIT))
        }
        _ => Ok(record),
    }
}

fn read_tag(word: &str) -> Result<u8, Reason> {
    match read_hex(word)?[..] {
        [tag] if is_tag(tag) => Ok(tag),
        _ => Err(format!("`{}` is no tag of a record: 01 to 09", word)),
    }
}

fn rest(words: &mut Words) -> Result<Vec<u8>, Reason> {
    let rest = words.read("what ends the run", read_hex)?;
    if rest.is_empty() {
        return Err("no bytes end no run".into());
    }
    if begins_whole(&rest) {
        return Err("a whole record stands first in these bytes, and ends no run".into());
    }
    Ok(rest)
}

struct Words<'a>(SplitWhitespace<'a>);

impl Words<'_> {
    fn read<T>(&mut self, what: &str, read: fn(&str) -> Result<T, Reason>) -> Result<T, Reason> {
        self.0.next().ok_or_else(|| format!("{} is missing", what)).and_then(read)
    }

    fn keys(&mut self) -> Result<Vec<Key>, Reason> {
        self.0.by_ref().map(read_key).collect()
    }

    fn end(mut self) -> Result<(), Reason> {
        match self.0.next() {
            Some(word) => Err(format!("`{}` is one word too many", word)),
            None => Ok(()),
        }
    }
}
