use crate::given::{key, room, A};
use stranvek::{Error, KeyList, Keys, PushError, TransactionManager};

#[test]
fn a_list_is_its_fields() {
    let mut buffer = [0x77; 16];
    let mut list = KeyList::new(&mut buffer);
    assert!(list.is_empty());
    assert_eq!((list.len(), list.as_bytes()), (0, &b""[..]));
    for key in [&b"ab"[..], b"", b"\xff"] {
        list.push(key).expect("room for the key");
    }
    assert!(!list.is_empty());
    assert_eq!((list.len(), list.as_bytes()), (3, &b"K\0\x02abK\0\0K\0\x01\xff"[..]));
    assert_eq!(Keys::from(&list), Keys::encoded(b"K\0\x02abK\0\0K\0\x01\xff"));
    assert_eq!(format!("{:?}", list), "KeyList { len: 3, bytes: 12 }");
}

#[test]
fn a_full_list_stays_as_it_is_and_serves_again() {
    let mut buffer = [0x77; 8];
    let mut list = KeyList::new(&mut buffer);
    list.push(b"ab").expect("room for the key");
    assert_eq!(list.push(b"c"), Err(PushError::BufferFull));
    assert_eq!((list.len(), list.as_bytes()), (1, &b"K\0\x02ab"[..]));
    list.push(b"").expect("the three bytes that are left");
    assert_eq!(list.push(b""), Err(PushError::BufferFull));
    list.clear();
    assert_eq!((list.len(), list.is_empty()), (0, true));
    list.push(b"abcde").expect("the whole buffer");
    assert_eq!((list.len(), list.as_bytes()), (1, &b"K\0\x05abcde"[..]));
    assert_eq!(buffer, *b"K\0\x05abcde");
}

#[test]
fn the_longest_key_of_a_list() {
    let mut buffer = vec![0x77; 70_000];
    let mut list = KeyList::new(&mut buffer);
    assert_eq!(list.push(&key(0, 65_536)), Err(PushError::LongKey));
    assert!(list.is_empty() && list.as_bytes().is_empty());
    list.push(&key(0, 65_535)).expect("a length that two bytes say");
    assert_eq!(list.as_bytes()[..3], *b"K\xff\xff");
    let mut room = room();
    let mut manager = TransactionManager::new(&mut room, 7).expect("a room");
    assert_eq!(manager.track_write_keys(&A, &list), Err(Error::LongKey));
}

#[test]
fn each_reason_has_its_sentence() {
    let [full, long] = [PushError::BufferFull, PushError::LongKey].map(|why| why.to_string());
    assert_ne!(full, long);
    assert!(full.contains("buffer") && long.contains("65,535"));
}
