//! Document 01's scripts as text, for people to write and to read, and back: docs/DECISIONS.md has the forms.
//!
//! ```
//! let script = scripts::parse(b"begin A\nrange A 61.. ..63   # a comment\n").unwrap();
//! assert_eq!(scripts::Script::read(&script.bytes()), script);
//! assert_eq!(script.to_string(), "begin A\nrange A 61.. ..63\n");
//! ```
#![forbid(unsafe_code)]

mod fields;
mod parse;
mod print;
mod record;
mod script;
mod show;
mod words;

pub use parse::{parse, Fault};
pub use record::{Id, Key, Record};
pub use script::{Script, PAYLOAD_LIMIT};
pub use show::{beside, run};
