//! A field: a one-byte tag, a length of two big-endian bytes, a payload.

/// What a field takes besides its payload.
pub(crate) const HEAD: usize = 3;

/// The longest payload whose length a field can say.
pub(crate) const LONGEST: usize = u16::MAX as usize;

/// Writes a field to the front of a buffer and answers what it takes; nothing where it does not fit, and then nothing is written.
pub(crate) fn write(buffer: &mut [u8], tag: u8, payload: &[u8]) -> Option<usize> {
    let length = u16::try_from(payload.len()).ok()?;
    let field = buffer.get_mut(..HEAD + payload.len())?;
    field[0] = tag;
    field[1..HEAD].copy_from_slice(&length.to_be_bytes());
    field[HEAD..].copy_from_slice(payload);
    Some(field.len())
}
