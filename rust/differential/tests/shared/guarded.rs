//! Bytes beside memory that may not be touched.

use std::os::raw::{c_int, c_void};
use std::{ptr, slice};

/// Where guarded bytes stand.
#[derive(Clone, Copy, Debug)]
pub enum Against {
    /// The first byte is the first that may be read.
    Start,
    /// The last byte is the last that may be read.
    End,
}

pub const PAGE: usize = 4096;
const PROT_NONE: c_int = 0;
const PROT_READ_WRITE: c_int = 3;
const MAP_PRIVATE_ANONYMOUS: c_int = 0x22;

extern "C" {
    fn mmap(
        at: *mut c_void,
        length: usize,
        protection: c_int,
        flags: c_int,
        file: c_int,
        offset: i64,
    ) -> *mut c_void;
    fn mprotect(at: *mut c_void, length: usize, protection: c_int) -> c_int;
}

/// A copy of some bytes in pages of its own between two that may not be touched; they are never given back.
pub fn guarded(bytes: &[u8], against: Against) -> &'static mut [u8] {
    let room = (bytes.len() / PAGE + 1) * PAGE;
    // SAFETY: the system finds fresh memory, and of it the part that is opened is made a slice, once.
    let open = unsafe {
        let all = mmap(ptr::null_mut(), room + 2 * PAGE, PROT_NONE, MAP_PRIVATE_ANONYMOUS, -1, 0);
        assert_ne!(all as isize, -1, "no memory to be had");
        let open = all.cast::<u8>().add(PAGE);
        assert_eq!(mprotect(open.cast(), room, PROT_READ_WRITE), 0);
        slice::from_raw_parts_mut(open, room)
    };
    let place = match against {
        Against::Start => &mut open[..bytes.len()],
        Against::End => &mut open[room - bytes.len()..],
    };
    place.copy_from_slice(bytes);
    place
}
