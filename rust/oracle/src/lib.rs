//! The judge of the differential tests: four files of slatedb 0.16.0, unchanged, with probes that open their private parts.
#![forbid(unsafe_code)]

// The manager names its source of ids by slatedb's companion crate.
extern crate self as slatedb_common;

// The included files are left as they are, so what a compiler would say about their style and their unused parts is not heard.
#[allow(dead_code, unused_imports, unstable_name_collisions, clippy::all)]
pub mod bytes_range;
#[allow(dead_code, unused_imports, unstable_name_collisions, clippy::all)]
pub mod comparable_range;
#[allow(dead_code, unused_imports, clippy::all)]
pub mod oracle;
#[allow(dead_code, unused_imports, clippy::all)]
pub mod transaction_manager;

mod stand_ins;

pub use stand_ins::DbRand;

/// Where the manager looks for the maker of ids.
pub mod utils {
    pub use crate::stand_ins::IdGenerator;
}

/// Where the oracle of sequences looks for its listener.
pub mod db_status {
    pub use crate::stand_ins::DbStatusManager;
}
