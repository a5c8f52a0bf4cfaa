//! The numbers that cross the boundary: statuses, the tags of fields, and limits.

/// Done; the value is the call's own.
pub const DONE: u8 = 0;
/// The id is not active, or a minimum was asked for with nobody active.
pub const ABSENT: u8 = 1;
/// An id that is not 16 bytes, or a key list or bounds that are badly formed.
pub const MALFORMED: u8 = 2;
/// A begin of an active id.
pub const AGAIN: u8 = 3;
/// A key over [`KEY_LIMIT`] bytes.
pub const LONG_KEY: u8 = 4;
/// A range that is empty by the rule.
pub const EMPTY_RANGE: u8 = 5;
/// A call that would pass one of the room's ceilings.
pub const FULL: u8 = 6;
/// A room that is too short or does not hold the record of a state.
pub const NO_STATE: u8 = 7;

/// The tag of a field that is a key of a list.
pub const KEY: u8 = 0x4b;
/// The tag of an unbounded bound, whose field has no payload.
pub const UNBOUNDED: u8 = 0x10;
/// The tag of a bound that includes its key.
pub const INCLUDED: u8 = 0x11;
/// The tag of a bound that excludes its key.
pub const EXCLUDED: u8 = 0x12;

/// The longest key that the library stores or lets into a range.
pub const KEY_LIMIT: usize = 512;

/// How many bytes a room takes, as a constant, for `[u8; ROOM_SIZE]`. The library says it by
/// [`boundary::room_size`](crate::boundary::room_size), to which a test holds this number; no code here relies on it.
pub const ROOM_SIZE: usize = 41_172;
