//! Script records as document 01 writes them: made from calls, and read without a line of the library's.

use crate::call::{field, Call};
use crate::Judge;
use stranvek::boundary::Answer;
use stranvek::numbers::MALFORMED;

pub const PAYLOAD_LIMIT: usize = 32_768;

/// The tag and the payload of a call's record.
pub fn parts(call: &Call) -> (u8, Vec<u8>) {
    match call {
        Call::New(_) => panic!("no record makes a room fresh"),
        Call::NewTransaction(id) => (0x01, id.clone()),
        Call::Writes(id, list) => (0x02, [&id[..], list].concat()),
        Call::Reads(id, list) => (0x03, [&id[..], list].concat()),
        Call::Range(id, bounds) => (0x04, [&id[..], bounds].concat()),
        Call::Check(id) => (0x05, id.clone()),
        Call::Commit(id, seq) => (0x06, [&id[..], &seq.to_be_bytes()].concat()),
        Call::Batch(list, seq) => (0x07, [&seq.to_be_bytes(), &list[..]].concat()),
        Call::Drop(id) => (0x08, id.clone()),
        Call::Minimum => (0x09, Vec::new()),
    }
}

pub fn record(call: &Call) -> Vec<u8> {
    let (tag, payload) = parts(call);
    field(tag, &payload)
}

/// What stands at a place of a script.
pub enum Next<'a> {
    End,
    Record { tag: u8, payload: &'a [u8] },
    Stop,
}

/// "An unknown tag, a payload above 32,768 or a cut record ends the run."
pub fn next(bytes: &[u8]) -> Next<'_> {
    let length = match *bytes {
        [] => return Next::End,
        [tag, high, low, ..] if (1..=9).contains(&tag) => {
            usize::from(high) * 256 + usize::from(low)
        }
        _ => return Next::Stop,
    };
    match bytes[3..].get(..length) {
        Some(payload) if length <= PAYLOAD_LIMIT => Next::Record { tag: bytes[0], payload },
        _ => Next::Stop,
    }
}

/// Where each whole record begins, and where the last one ends.
pub fn places(bytes: &[u8]) -> Vec<usize> {
    let mut places = vec![0];
    let mut at = 0;
    while let Next::Record { payload, .. } = next(&bytes[at..]) {
        at += 3 + payload.len();
        places.push(at);
    }
    places
}

/// The call of a record; nothing where a sequence is not 8 bytes, or a minimum has a payload.
pub fn call_of(tag: u8, payload: &[u8]) -> Option<Call> {
    // An id that is cut stays one that is not 16 bytes.
    let (id, rest) = payload.split_at(payload.len().min(16));
    let (id, rest) = (id.to_vec(), rest.to_vec());
    Some(match tag {
        0x01 => Call::NewTransaction(payload.to_vec()),
        0x02 => Call::Writes(id, rest),
        0x03 => Call::Reads(id, rest),
        0x04 => Call::Range(id, rest),
        0x05 => Call::Check(payload.to_vec()),
        0x06 => Call::Commit(id, u64::from_be_bytes(rest.try_into().ok()?)),
        0x07 => {
            let seq = payload.get(..8)?.try_into().ok()?;
            Call::Batch(payload[8..].to_vec(), u64::from_be_bytes(seq))
        }
        0x08 => Call::Drop(payload.to_vec()),
        0x09 if payload.is_empty() => Call::Minimum,
        _ => return None,
    })
}

impl Judge {
    /// "Leftover or missing payload is status 2."
    pub fn answer_record(&mut self, tag: u8, payload: &[u8]) -> Answer {
        let refused = Answer { status: MALFORMED, value: 0 };
        call_of(tag, payload).map_or(refused, |call| self.answer(&call))
    }
}
