use crate::fields;
use crate::numbers::KEY;
use core::fmt;

/// A list of keys, built in a lent buffer: there is no heap.
///
/// Each key takes three bytes of the buffer besides its own. A key may be pushed twice; the manager stores it once.
///
/// ```
/// use stranvek::{KeyList, PushError};
///
/// let mut buffer = [0; 16];
/// let mut keys = KeyList::new(&mut buffer);
/// keys.push(b"balance")?;
/// keys.push(b"")?;
/// assert_eq!(keys.len(), 2);
/// assert_eq!(keys.as_bytes(), b"K\0\x07balanceK\0\0");
/// assert_eq!(keys.push(b"k"), Err(PushError::BufferFull));
/// # Ok::<(), PushError>(())
/// ```
pub struct KeyList<'b> {
    buffer: &'b mut [u8],
    used: usize,
    count: usize,
}

impl<'b> KeyList<'b> {
    /// An empty list; what the buffer held is ignored.
    pub fn new(buffer: &'b mut [u8]) -> Self {
        KeyList { buffer, used: 0, count: 0 }
    }

    /// Puts a key at the end of the list; a refused one leaves the list as it was.
    ///
    /// A key over 65,535 bytes is refused here, since a list cannot say its length. A key that is shorter than that and
    /// over [`KEY_LIMIT`](crate::KEY_LIMIT) is taken: the manager refuses its list with
    /// [`Error::LongKey`](crate::Error::LongKey).
    pub fn push(&mut self, key: &[u8]) -> Result<(), PushError> {
        if key.len() > fields::LONGEST {
            return Err(PushError::LongKey);
        }
        let rest = &mut self.buffer[self.used..];
        self.used += fields::write(rest, KEY, key).ok_or(PushError::BufferFull)?;
        self.count += 1;
        Ok(())
    }

    /// The list as the manager reads it: for each key the byte 4b, its length in two big-endian bytes, and the key.
    pub fn as_bytes(&self) -> &[u8] {
        &self.buffer[..self.used]
    }

    /// How many keys were pushed.
    pub fn len(&self) -> usize {
        self.count
    }

    /// Whether no key was pushed.
    pub fn is_empty(&self) -> bool {
        self.count == 0
    }

    /// Empties the list, so that its buffer serves again.
    pub fn clear(&mut self) {
        self.used = 0;
        self.count = 0;
    }
}

impl fmt::Debug for KeyList<'_> {
    fn fmt(&self, f: &mut fmt::Formatter<'_>) -> fmt::Result {
        f.debug_struct("KeyList").field("len", &self.count).field("bytes", &self.used).finish()
    }
}

/// The keys that a call takes: a [`KeyList`], or bytes in a list's form that came from elsewhere.
///
/// ```
/// use stranvek::{Error, Keys, TransactionManager, TxnId, ROOM_SIZE};
///
/// let mut room = [0; ROOM_SIZE];
/// let mut manager = TransactionManager::new(&mut room, 0)?;
/// let guest = TxnId::from([7; 16]);
/// manager.new_transaction(&guest)?;
/// assert_eq!(manager.track_read_keys(&guest, Keys::encoded(b"K\0\x01a")), Ok(1));
/// assert_eq!(manager.track_read_keys(&guest, Keys::encoded(b"K\0\x09a")), Err(Error::Malformed));
/// # Ok::<(), Error>(())
/// ```
#[derive(Clone, Copy, Debug, PartialEq, Eq)]
pub struct Keys<'k>(&'k [u8]);

impl<'k> Keys<'k> {
    /// A list that is already encoded, such as a guest sends it: it goes to the manager as it is, uncopied, and the
    /// manager judges any bytes.
    pub const fn encoded(list: &'k [u8]) -> Self {
        Keys(list)
    }

    /// The list as the manager reads it.
    pub const fn as_bytes(self) -> &'k [u8] {
        self.0
    }
}

impl<'k> From<&'k KeyList<'_>> for Keys<'k> {
    fn from(list: &'k KeyList<'_>) -> Self {
        Keys(list.as_bytes())
    }
}

/// Why a key was not put into a [`KeyList`].
#[derive(Clone, Copy, Debug, PartialEq, Eq, Hash)]
pub enum PushError {
    /// What is left of the buffer does not take the key and its three bytes.
    BufferFull,
    /// The key is over 65,535 bytes, a length that a list cannot say.
    LongKey,
}

impl fmt::Display for PushError {
    fn fmt(&self, f: &mut fmt::Formatter<'_>) -> fmt::Result {
        f.write_str(match self {
            PushError::BufferFull => "the list's buffer has no place left for the key",
            PushError::LongKey => "the key is over 65,535 bytes, which a list cannot say",
        })
    }
}

#[cfg(feature = "std")]
impl std::error::Error for PushError {}
