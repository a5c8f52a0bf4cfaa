//! The crate as a host sees it: every test calls the public interface alone.

mod given;

mod calls;
mod errors;
mod ids;
mod lists;
mod ranges;
mod script_p;
