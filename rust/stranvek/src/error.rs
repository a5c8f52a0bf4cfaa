use crate::numbers;
use core::fmt;

/// Why a call was refused: the manager's statuses 1 to 7. A refused call has changed no byte of the room.
///
/// Later versions of the library add statuses, so a `match` needs an arm for them.
///
/// ```
/// use stranvek::{Error, TransactionManager};
///
/// let refused = TransactionManager::new(&mut [0; 100], 0).unwrap_err();
/// assert_eq!(refused, Error::NoState);
/// assert_eq!(refused.status(), 7);
/// assert_eq!(refused.to_string(), "the room is too short or does not hold the record of a state");
/// ```
#[non_exhaustive]
#[derive(Clone, Copy, Debug, PartialEq, Eq, Hash)]
pub enum Error {
    /// Status 1: the id is not active.
    Absent,
    /// Status 2: an id that is not 16 bytes, or a key list that is badly formed.
    Malformed,
    /// Status 3: a transaction of this id is active already.
    Again,
    /// Status 4: a key over [`KEY_LIMIT`](crate::KEY_LIMIT) bytes.
    LongKey,
    /// Status 5: a range that is empty by the rule: with both ends bounded, start and end are the same key and not both
    /// included, or the start lies after the end.
    EmptyRange,
    /// Status 6: the call would pass a ceiling of the room: 32 active transactions, 128 entries of recent commits, 1,024
    /// keys and ranges, 32,768 bytes of keys.
    Full,
    /// Status 7: the room is too short, or its bytes are not the record of a state.
    NoState,
}

impl Error {
    const ALL: [Error; 7] = [
        Error::Absent,
        Error::Malformed,
        Error::Again,
        Error::LongKey,
        Error::EmptyRange,
        Error::Full,
        Error::NoState,
    ];

    /// The status that the manager answered.
    pub const fn status(self) -> u8 {
        match self {
            Error::Absent => numbers::ABSENT,
            Error::Malformed => numbers::MALFORMED,
            Error::Again => numbers::AGAIN,
            Error::LongKey => numbers::LONG_KEY,
            Error::EmptyRange => numbers::EMPTY_RANGE,
            Error::Full => numbers::FULL,
            Error::NoState => numbers::NO_STATE,
        }
    }

    /// The error of a status; nothing for 0, which is done, and for numbers that are no status.
    pub fn from_status(status: u8) -> Option<Self> {
        Error::ALL.iter().copied().find(|error| error.status() == status)
    }
}

impl fmt::Display for Error {
    fn fmt(&self, f: &mut fmt::Formatter<'_>) -> fmt::Result {
        f.write_str(match self {
            Error::Absent => "no transaction of this id is active",
            Error::Malformed => "an id is not 16 bytes, or a key list is badly formed",
            Error::Again => "a transaction of this id is active already",
            Error::LongKey => "a key is longer than the manager stores",
            Error::EmptyRange => "the range is empty",
            Error::Full => "the call would pass a ceiling of the room",
            Error::NoState => "the room is too short or does not hold the record of a state",
        })
    }
}

#[cfg(feature = "std")]
impl std::error::Error for Error {}
