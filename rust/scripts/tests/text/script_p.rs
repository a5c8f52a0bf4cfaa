//! Script P in the repository: its text and the bytes that the replay program is tested with.

use scripts::{parse, Script};

const TEXT: &str = include_str!("../../../../scripts/p.txt");
const BYTES: &[u8] = include_bytes!("../../../../crates/replay/stdin");

#[test]
fn the_text_gives_the_bytes() {
    let script = parse(TEXT.as_bytes()).expect("script P");
    assert_eq!(script.records.len(), 15);
    assert_eq!(script.bytes(), BYTES);
}

#[test]
fn the_bytes_give_the_text_without_its_comment() {
    let (comment, rest) = TEXT.split_once('\n').expect("lines");
    assert!(comment.starts_with('#'));
    assert_eq!(Script::read(BYTES).to_string(), rest);
}
