//! Scripts as text: one record a line, in one form for each script.

use crate::record::Record;
use crate::script::Script;
use crate::words::{end, hex, id, keys, start};
use std::fmt::{self, Display, Formatter};

impl Display for Record {
    fn fmt(&self, f: &mut Formatter) -> fmt::Result {
        match self {
            Record::Begin(txn) => write!(f, "begin {}", id(txn)),
            Record::Write(txn, list) => write!(f, "write {}{}", id(txn), keys(list)),
            Record::Read(txn, list) => write!(f, "read {}{}", id(txn), keys(list)),
            Record::Range(txn, from, to) => {
                write!(f, "range {} {} {}", id(txn), start(from), end(to))
            }
            Record::Check(txn) => write!(f, "check {}", id(txn)),
            Record::Commit(txn, seq) => write!(f, "commit {} {}", id(txn), seq),
            Record::Batch(seq, list) => write!(f, "batch {}{}", seq, keys(list)),
            Record::Drop(txn) => write!(f, "drop {}", id(txn)),
            Record::Minimum => write!(f, "minimum"),
            Record::Malformed(tag, payload) => write!(f, "record {:02x} {}", tag, hex(payload)),
        }
    }
}

impl Script {
    /// The text of what ends the run.
    pub fn rest_text(&self) -> Option<String> {
        (!self.rest.is_empty()).then(|| format!("bytes {}", hex(&self.rest)))
    }
}

impl Display for Script {
    fn fmt(&self, f: &mut Formatter) -> fmt::Result {
        for record in &self.records {
            writeln!(f, "{}", record)?;
        }
        match self.rest_text() {
            Some(rest) => writeln!(f, "{}", rest),
            None => Ok(()),
        }
    }
}
