//! Fields as document 01 writes them.

/// A tag, a length of two bytes, a payload.
pub fn field(tag: u8, payload: &[u8]) -> Vec<u8> {
    let length = u16::try_from(payload.len()).expect("a payload that a field can have");
    [&[tag], &length.to_be_bytes()[..], payload].concat()
}

pub fn list_of<K: AsRef<[u8]>>(keys: &[K]) -> Vec<u8> {
    keys.iter().flat_map(|key| field(0x4b, key.as_ref())).collect()
}
