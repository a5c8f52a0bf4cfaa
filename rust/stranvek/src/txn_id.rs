use crate::error::Error;
use core::fmt;

/// A transaction's id: 16 bytes of the caller's choice, ordered as bytes.
///
/// ```
/// use stranvek::{Error, TxnId};
///
/// let id = TxnId::from([0xa5; 16]);
/// assert_eq!(id.to_string(), "a5a5a5a5a5a5a5a5a5a5a5a5a5a5a5a5");
/// assert_eq!(TxnId::try_from(&[0xa5; 16][..]), Ok(id));
/// assert_eq!(TxnId::try_from(&[0xa5; 15][..]), Err(Error::Malformed));
/// ```
#[derive(Clone, Copy, PartialEq, Eq, PartialOrd, Ord, Hash)]
pub struct TxnId([u8; 16]);

impl TxnId {
    /// The id of these bytes, for constants; elsewhere `TxnId::from` is the same.
    pub const fn from_bytes(bytes: [u8; 16]) -> Self {
        TxnId(bytes)
    }

    /// The id's bytes.
    pub const fn as_bytes(&self) -> &[u8; 16] {
        &self.0
    }
}

impl From<[u8; 16]> for TxnId {
    fn from(bytes: [u8; 16]) -> Self {
        TxnId(bytes)
    }
}

impl From<TxnId> for [u8; 16] {
    fn from(id: TxnId) -> Self {
        id.0
    }
}

impl TryFrom<&[u8]> for TxnId {
    type Error = Error;

    /// [`Error::Malformed`] where there are not 16 bytes, as the manager itself would answer.
    fn try_from(bytes: &[u8]) -> Result<Self, Error> {
        bytes.try_into().map(TxnId).map_err(|_| Error::Malformed)
    }
}

impl fmt::Display for TxnId {
    fn fmt(&self, f: &mut fmt::Formatter<'_>) -> fmt::Result {
        self.0.iter().try_for_each(|byte| write!(f, "{:02x}", byte))
    }
}

impl fmt::Debug for TxnId {
    fn fmt(&self, f: &mut fmt::Formatter<'_>) -> fmt::Result {
        write!(f, "TxnId({})", self)
    }
}
