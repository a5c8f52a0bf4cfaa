use crate::given::{A, B};
use std::collections::HashSet;
use stranvek::TxnId;

#[test]
fn an_id_is_its_bytes() {
    let bytes: [u8; 16] = std::array::from_fn(|n| n as u8 * 0x11);
    let id = TxnId::from(bytes);
    assert_eq!(id.as_bytes(), &bytes);
    assert_eq!(<[u8; 16]>::from(id), bytes);
    assert_eq!(TxnId::try_from(&bytes[..]), Ok(id));
    assert_eq!(id.to_string(), "00112233445566778899aabbccddeeff");
    assert_eq!(format!("{:?}", id), "TxnId(00112233445566778899aabbccddeeff)");
}

#[test]
fn ids_are_ordered_and_told_apart_as_bytes() {
    let mut last = [0; 16];
    last[15] = 0xff;
    let mut ids = [B, TxnId::from(last), A, B];
    ids.sort_unstable();
    assert_eq!(ids, [TxnId::from(last), A, B, B]);
    assert_eq!(ids.iter().collect::<HashSet<_>>().len(), 3);
}
