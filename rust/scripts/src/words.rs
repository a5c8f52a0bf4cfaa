//! The words of a line, both ways: bytes, ids, sequences and bounds.

use crate::record::{Id, Key};
use crate::script::PAYLOAD_LIMIT;
use std::fmt::Write;
use std::ops::Bound;

/// No bytes.
const NONE: &str = "\"\"";
const DIGITS: &[u8; 16] = b"0123456789abcdef";

/// Why a word is not what it should be.
pub type Reason = String;

pub fn hex(bytes: &[u8]) -> String {
    if bytes.is_empty() {
        return NONE.into();
    }
    let digit = |nibble: u8| char::from(DIGITS[usize::from(nibble)]);
    bytes.iter().flat_map(|byte| [digit(byte >> 4), digit(byte & 0xf)]).collect()
}

pub fn read_hex(word: &str) -> Result<Vec<u8>, Reason> {
    if word == NONE {
        return Ok(Vec::new());
    }
    let wrong = || format!("`{}` is not pairs of hex digits, nor {} for no bytes", word, NONE);
    let nibble = |digit: u8| char::from(digit).to_digit(16).ok_or_else(wrong);
    if word.is_empty() || word.len() % 2 != 0 {
        return Err(wrong());
    }
    let pairs = word.as_bytes().chunks_exact(2);
    pairs.map(|pair| Ok((nibble(pair[0])? * 16 + nibble(pair[1])?) as u8)).collect()
}

/// A key of any length that a record can hold: a longer one has no field.
pub fn read_key(word: &str) -> Result<Key, Reason> {
    let key = read_hex(word)?;
    if key.len() > PAYLOAD_LIMIT {
        return Err(format!("a key of {} bytes is longer than any record", key.len()));
    }
    Ok(key)
}

/// A letter is the id of sixteen such bytes.
pub fn id(id: &Id) -> String {
    let letter = id[0];
    if letter.is_ascii_alphabetic() && id.iter().all(|&byte| byte == letter) {
        return char::from(letter).into();
    }
    hex(id)
}

pub fn read_id(word: &str) -> Result<Id, Reason> {
    let wrong = |_| format!("`{}` is no id: one letter, or 32 hex digits", word);
    match word.as_bytes() {
        [letter] if letter.is_ascii_alphabetic() => Ok([*letter; 16]),
        _ => read_hex(word).and_then(|id| id.try_into().map_err(|_| Reason::new())).map_err(wrong),
    }
}

pub fn read_sequence(word: &str) -> Result<u64, Reason> {
    let digits = word.bytes().all(|byte| byte.is_ascii_digit());
    let wrong = || format!("`{}` is no sequence: a decimal number of at most 64 bits", word);
    word.parse().ok().filter(|_| digits).ok_or_else(wrong)
}

/// Document 01's bare form of a start is included, and that of an end is excluded, as in Rust.
pub fn start(bound: &Bound<Key>) -> String {
    match bound {
        Bound::Unbounded => "..".into(),
        Bound::Included(key) => hex(key) + "..",
        Bound::Excluded(key) => format!(">{}", hex(key)),
    }
}

pub fn end(bound: &Bound<Key>) -> String {
    match bound {
        Bound::Unbounded => "..".into(),
        Bound::Included(key) => format!("..={}", hex(key)),
        Bound::Excluded(key) => format!("..{}", hex(key)),
    }
}

pub fn read_start(word: &str) -> Result<Bound<Key>, Reason> {
    if word == ".." {
        return Ok(Bound::Unbounded);
    }
    if let Some(key) = word.strip_suffix("..") {
        return read_key(key).map(Bound::Included);
    }
    match word.strip_prefix('>') {
        Some(key) => read_key(key).map(Bound::Excluded),
        None => Err(format!("`{}` is no start: KEY.., >KEY or ..", word)),
    }
}

pub fn read_end(word: &str) -> Result<Bound<Key>, Reason> {
    if word == ".." {
        return Ok(Bound::Unbounded);
    }
    if let Some(key) = word.strip_prefix("..=") {
        return read_key(key).map(Bound::Included);
    }
    match word.strip_prefix("..") {
        Some(key) => read_key(key).map(Bound::Excluded),
        None => Err(format!("`{}` is no end: ..KEY, ..=KEY or ..", word)),
    }
}

/// Keys, each after a space.
pub fn keys(keys: &[Key]) -> String {
    let mut text = String::new();
    for key in keys {
        write!(text, " {}", hex(key)).expect("a string takes it");
    }
    text
}
