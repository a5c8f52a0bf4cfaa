//! A whole record: the call that its payload is, or the payload where it is none.

use crate::fields;
use std::ops::Bound;

pub type Id = [u8; 16];
pub type Key = Vec<u8>;

#[derive(Clone, Debug, PartialEq, Eq)]
pub enum Record {
    Begin(Id),
    Write(Id, Vec<Key>),
    Read(Id, Vec<Key>),
    Range(Id, Bound<Key>, Bound<Key>),
    Check(Id),
    Commit(Id, u64),
    Batch(u64, Vec<Key>),
    Drop(Id),
    Minimum,
    /// A tag of a call, and a payload that document 01 answers with status 2.
    Malformed(u8, Vec<u8>),
}

impl Record {
    pub fn read(tag: u8, payload: &[u8]) -> Self {
        let malformed = || Record::Malformed(tag, payload.to_vec());
        call(tag, payload).unwrap_or_else(malformed)
    }

    pub fn tag(&self) -> u8 {
        match self {
            Record::Begin(_) => 0x01,
            Record::Write(..) => 0x02,
            Record::Read(..) => 0x03,
            Record::Range(..) => 0x04,
            Record::Check(_) => 0x05,
            Record::Commit(..) => 0x06,
            Record::Batch(..) => 0x07,
            Record::Drop(_) => 0x08,
            Record::Minimum => 0x09,
            Record::Malformed(tag, _) => *tag,
        }
    }

    pub fn payload(&self) -> Vec<u8> {
        match self {
            Record::Begin(id) | Record::Check(id) | Record::Drop(id) => id.to_vec(),
            Record::Write(id, keys) | Record::Read(id, keys) => {
                [&id[..], &fields::list(keys)].concat()
            }
            Record::Range(id, start, end) => {
                [&id[..], &fields::bound(start), &fields::bound(end)].concat()
            }
            Record::Commit(id, seq) => [&id[..], &seq.to_be_bytes()].concat(),
            Record::Batch(seq, keys) => [&seq.to_be_bytes()[..], &fields::list(keys)].concat(),
            Record::Minimum => Vec::new(),
            Record::Malformed(_, payload) => payload.clone(),
        }
    }
}

fn call(tag: u8, payload: &[u8]) -> Option<Record> {
    Some(match tag {
        0x01 => Record::Begin(payload.try_into().ok()?),
        0x02 => {
            let (id, list) = split(payload)?;
            Record::Write(id, fields::read_list(list)?)
        }
        0x03 => {
            let (id, list) = split(payload)?;
            Record::Read(id, fields::read_list(list)?)
        }
        0x04 => {
            let (id, bounds) = split(payload)?;
            let (start, end) = fields::read_bounds(bounds)?;
            Record::Range(id, start, end)
        }
        0x05 => Record::Check(payload.try_into().ok()?),
        0x06 => {
            let (id, seq) = split(payload)?;
            Record::Commit(id, u64::from_be_bytes(seq.try_into().ok()?))
        }
        0x07 => {
            let (seq, list) = split(payload)?;
            Record::Batch(u64::from_be_bytes(seq), fields::read_list(list)?)
        }
        0x08 => Record::Drop(payload.try_into().ok()?),
        0x09 if payload.is_empty() => Record::Minimum,
        _ => return None,
    })
}

/// What stands raw in front, and the rest.
fn split<const N: usize>(payload: &[u8]) -> Option<([u8; N], &[u8])> {
    let front = payload.get(..N)?.try_into().ok()?;
    Some((front, &payload[N..]))
}
