//! A program without std that uses the crate. It has a panic handler of its own, and std has one: were std brought in, the
//! second would be an error.
#![cfg_attr(not(feature = "std"), no_std)]

use stranvek::{Error, TransactionManager};

/// What such a program would ask.
pub fn smallest_start(room: &mut [u8]) -> Result<Option<u64>, Error> {
    TransactionManager::open(room)?.min_active_seq()
}

#[cfg(not(feature = "std"))]
#[panic_handler]
fn halt(_: &core::panic::PanicInfo) -> ! {
    loop {}
}
