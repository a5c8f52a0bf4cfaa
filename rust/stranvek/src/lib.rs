//! A transaction manager that decides whose commit stands, over a room of bytes that the host lends: slatedb's manager,
//! ported to Rattle, a language in which every function is proved to meet its contract.
//!
//! Two guests that read and write one key, of which the second must try again:
//!
//! ```
//! use stranvek::{KeyList, TransactionManager, TxnId, ROOM_SIZE};
//!
//! let mut room = [0; ROOM_SIZE];
//! let mut manager = TransactionManager::new(&mut room, 100)?;
//! let (a, b) = (TxnId::from([0xa; 16]), TxnId::from([0xb; 16]));
//! assert_eq!(manager.new_transaction(&a)?, 100);
//! assert_eq!(manager.new_transaction(&b)?, 100);
//!
//! let mut buffer = [0; 64];
//! let mut keys = KeyList::new(&mut buffer);
//! keys.push(b"balance").expect("a buffer that takes the key");
//! manager.track_write_keys(&a, &keys)?;
//! manager.track_read_keys(&b, &keys)?;
//!
//! assert!(!manager.check_has_conflict(&a)?);
//! assert!(manager.track_recent_committed_txn(&a, 101)?.was_active);
//! assert!(manager.check_has_conflict(&b)?);
//! manager.drop_txn(&b)?;
//! assert_eq!(manager.new_transaction(&b)?, 101);
//! # Ok::<(), stranvek::Error>(())
//! ```
//!
//! # What is proved, and what is not
//!
//! Proved, for all arguments and all rooms: what each call of [`boundary`] answers and which bytes of the room it leaves. No
//! call reads or writes outside the slices that it is lent, none panics, and none loops for ever. A refused call changes no
//! byte.
//!
//! Not proved: this crate. It declares those calls, writes keys and bounds into the form that they read, and names what they
//! answer. It is thin, its unsafe code stands in [`boundary`] alone, and it is tested.
//!
//! # What a host must know
//!
//! - Every call validates the room first, so a damaged room is [`Error::NoState`] and never a wrong verdict. A room that
//!   was damaged into the record of another state cannot be told from it.
//! - A call takes up to 36 KiB of stack, and no heap.
//! - There is no lock and no clock: `&mut` keeps callers apart, and sequences are the host's.
//! - The archive that is linked must be of the same source as this crate.
//!
//! Feature `std`, off by default, implements `std::error::Error` for [`Error`] and [`PushError`].
#![no_std]
#![deny(unsafe_code)]
#![warn(missing_docs)]

#[cfg(feature = "std")]
extern crate std;

pub mod boundary;
pub mod numbers;

mod answers;
mod bounds;
mod error;
mod fields;
mod key_list;
mod transaction_manager;
mod txn_id;

pub use answers::{Committed, Dropped};
pub use error::Error;
pub use key_list::{KeyList, Keys, PushError};
pub use numbers::{KEY_LIMIT, ROOM_SIZE};
pub use transaction_manager::TransactionManager;
pub use txn_id::TxnId;
