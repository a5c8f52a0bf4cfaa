use crate::answers::{done, ended, Committed, Dropped};
use crate::boundary;
use crate::bounds::Bounds;
use crate::error::Error;
use crate::key_list::Keys;
use crate::txn_id::TxnId;
use core::fmt;
use core::ops::RangeBounds;

/// The transaction manager over a lent room, which holds its whole state.
///
/// The room must be at least [`ROOM_SIZE`](crate::ROOM_SIZE) bytes long; bytes beyond that are never touched. One caller at a
/// time: that is what `&mut` says.
///
/// Every call validates the room, and answers [`Error::NoState`] where its bytes are not the record of a state. With the room
/// lent to a manager that happens only if something other than the calls has written it; the lists of errors below leave it out.
pub struct TransactionManager<'a> {
    room: &'a mut [u8],
}

impl<'a> TransactionManager<'a> {
    /// Makes the room fresh, whatever it held: nobody active, no entries, and the given last committed number.
    ///
    /// ```
    /// use stranvek::{TransactionManager, TxnId, ROOM_SIZE};
    ///
    /// let mut room = [0xff; ROOM_SIZE];
    /// let mut manager = TransactionManager::new(&mut room, 41)?;
    /// assert_eq!(manager.new_transaction(&TxnId::from([1; 16])), Ok(41));
    /// # Ok::<(), stranvek::Error>(())
    /// ```
    ///
    /// # Errors
    /// [`Error::NoState`] where the room is too short.
    pub fn new(room: &'a mut [u8], last_committed_seq: u64) -> Result<Self, Error> {
        done(boundary::new(room, last_committed_seq))?;
        Ok(TransactionManager { room })
    }

    /// Takes a room that holds a state already, such as [`room`](Self::room) gave it.
    ///
    /// The state is validated by asking for the smallest start: that call takes nothing but the room and changes nothing, so
    /// it is refused exactly where the bytes are not the record of a state. Every later call validates the room again.
    ///
    /// ```
    /// use stranvek::{Error, TransactionManager, TxnId, ROOM_SIZE};
    ///
    /// let mut room = [0; ROOM_SIZE];
    /// assert_eq!(TransactionManager::open(&mut room).unwrap_err(), Error::NoState);
    /// TransactionManager::new(&mut room, 7)?.new_transaction(&TxnId::from([1; 16]))?;
    ///
    /// let mut kept = TransactionManager::open(&mut room)?.room().to_vec();
    /// let manager = TransactionManager::open(&mut kept)?;
    /// assert_eq!(manager.min_active_seq(), Ok(Some(7)));
    /// # Ok::<(), Error>(())
    /// ```
    ///
    /// # Errors
    /// [`Error::NoState`] where the room is too short or is not the record of a state.
    pub fn open(room: &'a mut [u8]) -> Result<Self, Error> {
        let manager = TransactionManager { room };
        manager.min_active_seq()?;
        Ok(manager)
    }

    /// The room's bytes, to keep or to copy; [`open`](Self::open) takes them again, as its example shows.
    pub fn room(&self) -> &[u8] {
        self.room
    }

    /// Begins a transaction; its start is the last committed number, which is answered.
    ///
    /// ```
    /// use stranvek::{Error, TransactionManager, TxnId, ROOM_SIZE};
    ///
    /// let mut room = [0; ROOM_SIZE];
    /// let mut manager = TransactionManager::new(&mut room, 7)?;
    /// let guest = TxnId::from([1; 16]);
    /// assert_eq!(manager.new_transaction(&guest), Ok(7));
    /// assert_eq!(manager.new_transaction(&guest), Err(Error::Again));
    /// # Ok::<(), Error>(())
    /// ```
    ///
    /// # Errors
    /// [`Error::Again`], or [`Error::Full`] with 32 active.
    pub fn new_transaction(&mut self, txn_id: &TxnId) -> Result<u64, Error> {
        done(boundary::new_transaction(self.room, txn_id.as_bytes()))
    }

    /// Removes a transaction if it is active, and then the entries that nobody can conflict with any more.
    ///
    /// ```
    /// use stranvek::{Dropped, TransactionManager, TxnId, ROOM_SIZE};
    ///
    /// let mut room = [0; ROOM_SIZE];
    /// let mut manager = TransactionManager::new(&mut room, 0)?;
    /// let guest = TxnId::from([7; 16]);
    /// manager.new_transaction(&guest)?;
    /// assert_eq!(manager.drop_txn(&guest), Ok(Dropped { was_active: true, entries_kept: 0 }));
    /// assert_eq!(manager.drop_txn(&guest), Ok(Dropped { was_active: false, entries_kept: 0 }));
    /// # Ok::<(), stranvek::Error>(())
    /// ```
    ///
    /// # Errors
    /// None: a drop of an id that is not active prunes too.
    pub fn drop_txn(&mut self, txn_id: &TxnId) -> Result<Dropped, Error> {
        let (was_active, entries_kept) = ended(boundary::drop_txn(self.room, txn_id.as_bytes()))?;
        Ok(Dropped { was_active, entries_kept })
    }

    /// Adds keys to a transaction's write set: all of them, or none where the call is refused. Answers how many are new there.
    ///
    /// ```
    /// use stranvek::{KeyList, TransactionManager, TxnId, ROOM_SIZE};
    ///
    /// let mut room = [0; ROOM_SIZE];
    /// let mut manager = TransactionManager::new(&mut room, 7)?;
    /// let guest = TxnId::from([1; 16]);
    /// manager.new_transaction(&guest)?;
    /// let mut buffer = [0; 64];
    /// let mut keys = KeyList::new(&mut buffer);
    /// keys.push(b"balance").expect("a buffer that takes the key");
    /// assert_eq!(manager.track_write_keys(&guest, &keys), Ok(1));
    /// assert_eq!(manager.track_write_keys(&guest, &keys), Ok(0));
    /// # Ok::<(), stranvek::Error>(())
    /// ```
    ///
    /// # Errors
    /// [`Error::Malformed`], [`Error::LongKey`], [`Error::Absent`] or [`Error::Full`].
    pub fn track_write_keys<'k>(
        &mut self,
        txn_id: &TxnId,
        write_keys: impl Into<Keys<'k>>,
    ) -> Result<u64, Error> {
        let keys = write_keys.into().as_bytes();
        done(boundary::track_write_keys(self.room, txn_id.as_bytes(), keys))
    }

    /// Adds keys to a transaction's read set, as [`track_write_keys`](Self::track_write_keys) does to its write set. Who tracks no
    /// reads and no ranges gets conflicts of writes alone.
    ///
    /// ```
    /// use stranvek::{Error, Keys, TransactionManager, TxnId, ROOM_SIZE};
    ///
    /// let mut room = [0; ROOM_SIZE];
    /// let mut manager = TransactionManager::new(&mut room, 7)?;
    /// let guest = TxnId::from([1; 16]);
    /// let sent = Keys::encoded(b"K\0\x01aK\0\x01b");
    /// assert_eq!(manager.track_read_keys(&guest, sent), Err(Error::Absent));
    /// manager.new_transaction(&guest)?;
    /// assert_eq!(manager.track_read_keys(&guest, sent), Ok(2));
    /// # Ok::<(), Error>(())
    /// ```
    ///
    /// # Errors
    /// [`Error::Malformed`], [`Error::LongKey`], [`Error::Absent`] or [`Error::Full`].
    pub fn track_read_keys<'k>(
        &mut self,
        txn_id: &TxnId,
        read_keys: impl Into<Keys<'k>>,
    ) -> Result<u64, Error> {
        let keys = read_keys.into().as_bytes();
        done(boundary::track_read_keys(self.room, txn_id.as_bytes(), keys))
    }

    /// Adds a range of keys to what a transaction has read; repeats are kept. Answers 1, the number of ranges newly stored.
    ///
    /// ```
    /// use core::ops::Bound::{Excluded, Unbounded};
    /// use stranvek::{Error, TransactionManager, TxnId, ROOM_SIZE};
    ///
    /// let mut room = [0; ROOM_SIZE];
    /// let mut manager = TransactionManager::new(&mut room, 0)?;
    /// let guest = TxnId::from([7; 16]);
    /// manager.new_transaction(&guest)?;
    /// let (a, b) = (b"user/".as_slice(), b"user0".as_slice());
    /// manager.track_read_range(&guest, a..b)?;
    /// manager.track_read_range(&guest, a..=b)?;
    /// manager.track_read_range(&guest, ..)?;
    /// manager.track_read_range(&guest, (Excluded(b), Unbounded))?;
    /// assert_eq!(manager.track_read_range(&guest, b..a), Err(Error::EmptyRange));
    /// # Ok::<(), Error>(())
    /// ```
    ///
    /// # Errors
    /// [`Error::LongKey`], [`Error::EmptyRange`], [`Error::Absent`] or [`Error::Full`].
    pub fn track_read_range<'k>(
        &mut self,
        txn_id: &TxnId,
        range: impl RangeBounds<&'k [u8]>,
    ) -> Result<u64, Error> {
        let bounds = Bounds::of(range);
        done(boundary::track_read_range(self.room, txn_id.as_bytes(), bounds.as_bytes()))
    }

    /// Whether a commit or a batch after the transaction's start wrote a key in its write set, its read set or one of its ranges.
    ///
    /// ```
    /// use stranvek::{Keys, TransactionManager, TxnId, ROOM_SIZE};
    ///
    /// let mut room = [0; ROOM_SIZE];
    /// let mut manager = TransactionManager::new(&mut room, 7)?;
    /// let guest = TxnId::from([1; 16]);
    /// manager.new_transaction(&guest)?;
    /// manager.track_read_range(&guest, b"a".as_slice()..b"c".as_slice())?;
    /// manager.track_recent_committed_write_batch(Keys::encoded(b"K\0\x01c"), 8)?;
    /// assert_eq!(manager.check_has_conflict(&guest), Ok(false));
    /// manager.track_recent_committed_write_batch(Keys::encoded(b"K\0\x01b"), 9)?;
    /// assert_eq!(manager.check_has_conflict(&guest), Ok(true));
    /// # Ok::<(), stranvek::Error>(())
    /// ```
    ///
    /// # Errors
    /// [`Error::Absent`].
    pub fn check_has_conflict(&self, txn_id: &TxnId) -> Result<bool, Error> {
        done(boundary::check_has_conflict(self.room, txn_id.as_bytes())).map(|value| value != 0)
    }

    /// Commits a transaction at a sequence: it leaves, its writes become an entry, and the last committed number advances. Ask
    /// [`check_has_conflict`](Self::check_has_conflict) first: a commit does not.
    ///
    /// The number advances for an id that is not active too; such a commit records no writes, as the answer says.
    ///
    /// ```
    /// use stranvek::{Committed, TransactionManager, TxnId, ROOM_SIZE};
    ///
    /// let mut room = [0; ROOM_SIZE];
    /// let mut manager = TransactionManager::new(&mut room, 7)?;
    /// let unknown = TxnId::from([7; 16]);
    /// let committed = manager.track_recent_committed_txn(&unknown, 9)?;
    /// assert_eq!(committed, Committed { was_active: false, last_committed_seq: 9 });
    /// # Ok::<(), stranvek::Error>(())
    /// ```
    ///
    /// # Errors
    /// [`Error::Full`] with 128 entries while someone else is active.
    pub fn track_recent_committed_txn(
        &mut self,
        txn_id: &TxnId,
        committed_seq: u64,
    ) -> Result<Committed, Error> {
        let id = txn_id.as_bytes();
        let answer = boundary::track_recent_committed_txn(self.room, id, committed_seq);
        let (was_active, last_committed_seq) = ended(answer)?;
        Ok(Committed { was_active, last_committed_seq })
    }

    /// Records keys as written at a sequence outside any transaction. Answers the last committed number after it.
    ///
    /// ```
    /// use stranvek::{Keys, TransactionManager, ROOM_SIZE};
    ///
    /// let mut room = [0; ROOM_SIZE];
    /// let mut manager = TransactionManager::new(&mut room, 7)?;
    /// assert_eq!(manager.track_recent_committed_write_batch(Keys::encoded(b"K\0\x01a"), 9), Ok(9));
    /// assert_eq!(manager.track_recent_committed_write_batch(Keys::encoded(b""), 8), Ok(9));
    /// # Ok::<(), stranvek::Error>(())
    /// ```
    ///
    /// # Errors
    /// [`Error::Malformed`], [`Error::LongKey`], or [`Error::Full`] while someone is active.
    pub fn track_recent_committed_write_batch<'k>(
        &mut self,
        keys: impl Into<Keys<'k>>,
        committed_seq: u64,
    ) -> Result<u64, Error> {
        let keys = keys.into().as_bytes();
        done(boundary::track_recent_committed_write_batch(self.room, keys, committed_seq))
    }

    /// The smallest start of the active transactions; `None` with nobody active.
    ///
    /// ```
    /// use stranvek::{TransactionManager, TxnId, ROOM_SIZE};
    ///
    /// let mut room = [0; ROOM_SIZE];
    /// let mut manager = TransactionManager::new(&mut room, 7)?;
    /// let guest = TxnId::from([1; 16]);
    /// assert_eq!(manager.min_active_seq(), Ok(None));
    /// manager.new_transaction(&guest)?;
    /// assert_eq!(manager.min_active_seq(), Ok(Some(7)));
    /// # Ok::<(), stranvek::Error>(())
    /// ```
    ///
    /// # Errors
    /// None.
    pub fn min_active_seq(&self) -> Result<Option<u64>, Error> {
        let (someone, start) = ended(boundary::min_active_seq(self.room))?;
        Ok(someone.then_some(start))
    }
}

impl fmt::Debug for TransactionManager<'_> {
    fn fmt(&self, f: &mut fmt::Formatter<'_>) -> fmt::Result {
        f.debug_struct("TransactionManager").field("room_len", &self.room.len()).finish()
    }
}
