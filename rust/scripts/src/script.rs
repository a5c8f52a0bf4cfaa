//! A script cut into its records.

use crate::fields;
use crate::record::Record;

/// A record with a longer payload ends the run.
pub const PAYLOAD_LIMIT: usize = 32_768;

#[derive(Clone, Debug, Default, PartialEq, Eq)]
pub struct Script {
    pub records: Vec<Record>,
    /// Empty, or what begins with the unknown tag, the payload above the limit or the cut record that ends the run.
    pub rest: Vec<u8>,
}

impl Script {
    pub fn read(bytes: &[u8]) -> Self {
        let mut records = Vec::new();
        let mut left = bytes;
        while let Some((tag, payload, after)) = whole(left) {
            records.push(Record::read(tag, payload));
            left = after;
        }
        Script { records, rest: left.to_vec() }
    }

    pub fn bytes(&self) -> Vec<u8> {
        let records = self.records.iter();
        let mut bytes: Vec<u8> =
            records.flat_map(|record| fields::field(record.tag(), &record.payload())).collect();
        bytes.extend_from_slice(&self.rest);
        bytes
    }
}

pub fn is_tag(tag: u8) -> bool {
    (0x01..=0x09).contains(&tag)
}

/// Whether some bytes begin with a record that does not end the run.
pub fn begins_whole(bytes: &[u8]) -> bool {
    whole(bytes).is_some()
}

fn whole(bytes: &[u8]) -> Option<(u8, &[u8], &[u8])> {
    fields::first(bytes).filter(|(tag, payload, _)| is_tag(*tag) && payload.len() <= PAYLOAD_LIMIT)
}
