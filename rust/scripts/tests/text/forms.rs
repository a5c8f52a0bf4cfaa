//! Each form of text beside its bytes, written out from document 01.

use scripts::{parse, Script};

/// Hex digits, and `@` for the id of sixteen bytes 41.
fn from_hex(digits: &str) -> Vec<u8> {
    let digits = digits.replace('@', &"41".repeat(16)).replace(' ', "");
    let byte = |at: usize| u8::from_str_radix(&digits[at..at + 2], 16).expect("hex digits");
    (0..digits.len()).step_by(2).map(byte).collect()
}

/// Texts in normal form, one line each.
const FORMS: [(&str, &str); 23] = [
    ("begin A", "01 0010 @"),
    ("begin z", "01 0010 7a7a7a7a7a7a7a7a7a7a7a7a7a7a7a7a"),
    ("begin 000102030405060708090a0b0c0d0eff", "01 0010 000102030405060708090a0b0c0d0eff"),
    // No letter, and a letter but for the last byte.
    ("begin 31313131313131313131313131313131", "01 0010 31313131313131313131313131313131"),
    ("begin 41414141414141414141414141414142", "01 0010 41414141414141414141414141414142"),
    ("write A 6b 6b01", "02 0019 @ 4b 0001 6b 4b 0002 6b01"),
    ("write A", "02 0010 @"),
    ("write A \"\" ff", "02 0017 @ 4b 0000 4b 0001 ff"),
    ("read A 6b 6b", "03 0018 @ 4b 0001 6b 4b 0001 6b"),
    ("range A 61.. ..63", "04 0018 @ 11 0001 61 12 0001 63"),
    ("range A >61 ..=63", "04 0018 @ 12 0001 61 11 0001 63"),
    ("range A .. ..", "04 0016 @ 10 0000 10 0000"),
    ("range A .. ..63", "04 0017 @ 10 0000 12 0001 63"),
    ("range A 6100.. ..", "04 0018 @ 11 0002 6100 10 0000"),
    ("range A \"\".. ..\"\"", "04 0016 @ 11 0000 12 0000"),
    ("range A >\"\" ..=\"\"", "04 0016 @ 12 0000 11 0000"),
    ("check A", "05 0010 @"),
    ("commit A 7", "06 0018 @ 0000000000000007"),
    ("commit A 18446744073709551615", "06 0018 @ ffffffffffffffff"),
    ("batch 9 6b 6c", "07 0010 0000000000000009 4b 0001 6b 4b 0001 6c"),
    ("batch 0", "07 0008 0000000000000000"),
    ("drop A", "08 0010 @"),
    ("minimum", "09 0000"),
];

/// Records whose payloads are no call of their tag.
const MALFORMED: [(&str, &str); 13] = [
    ("record 01 \"\"", "01 0000"),
    ("record 01 4141", "01 0002 4141"),
    ("record 02 6b6b", "02 0002 6b6b"),
    ("record 02 414141414141414141414141414141414b", "02 0011 @ 4b"),
    ("record 03 414141414141414141414141414141414c00016b", "03 0014 @ 4c 0001 6b"),
    // One bound, an unbounded one with a payload, three.
    ("record 04 41414141414141414141414141414141100000", "04 0013 @ 10 0000"),
    ("record 04 4141414141414141414141414141414110000161100000", "04 0017 @ 10 0001 61 10 0000"),
    (
        "record 04 41414141414141414141414141414141100000100000100000",
        "04 0019 @ 10 0000 10 0000 10 0000",
    ),
    ("record 05 4141414141414141414141414141414141", "05 0011 @ 41"),
    ("record 06 07", "06 0001 07"),
    ("record 07 00000000000009", "07 0007 00000000000009"),
    ("record 08 \"\"", "08 0000"),
    ("record 09 00", "09 0001 00"),
];

/// What ends a run: unknown tags, a payload above the limit, cut records.
const RESTS: [&str; 9] =
    ["00", "0a", "0f00", "ff0001090000", "018001", "098001090000", "01", "0100", "0100104141"];

fn both_ways(text: &str, bytes: &[u8]) {
    let script = parse(text.as_bytes()).unwrap_or_else(|fault| panic!("{}: {}", text, fault));
    assert_eq!(script.bytes(), bytes, "{}", text);
    assert_eq!(Script::read(bytes), script, "{}", text);
    assert_eq!(script.to_string(), text);
}

#[test]
fn each_form() {
    for (text, bytes) in FORMS.iter().chain(&MALFORMED) {
        both_ways(&format!("{}\n", text), &from_hex(bytes));
    }
    for rest in RESTS {
        both_ways(&format!("bytes {}\n", rest), &from_hex(rest));
        both_ways(&format!("minimum\nbytes {}\n", rest), &from_hex(&format!("090000{}", rest)));
    }
}

#[test]
fn all_forms_in_one_script() {
    let mut text = String::new();
    let mut bytes = Vec::new();
    for (line, record) in FORMS.iter().chain(&MALFORMED) {
        text.extend([line, "\n"]);
        bytes.extend(from_hex(record));
    }
    both_ways(&text, &bytes);
    both_ways(&(text + "bytes 0f00\n"), &[&bytes[..], &[0x0f, 0]].concat());
}

#[test]
fn other_texts_of_the_same_script() {
    let same = [
        ("", ""),
        ("\n  \n# nothing\n", ""),
        ("minimum", "minimum\n"),
        ("  minimum\t# the least start\r\n\r\nminimum\r\n", "minimum\nminimum\n"),
        ("write A 6B 6b0A#c", "write A 6b 6b0a\n"),
        ("check 41414141414141414141414141414141", "check A\n"),
        ("check ABABABABABABABABABABABABABABABAB", "check abababababababababababababababab\n"),
        ("commit A 007", "commit A 7\n"),
        ("record 09 \"\"", "minimum\n"),
        ("record 05 41414141414141414141414141414141", "check A\n"),
        ("bytes 0F # the end\n# and a comment\n", "bytes 0f\n"),
    ];
    for (text, normal) in same {
        let script = parse(text.as_bytes()).expect(text);
        assert_eq!(script.to_string(), normal, "{}", text);
        assert_eq!(Script::read(&script.bytes()), script, "{}", text);
    }
}

#[test]
fn the_longest_payload() {
    let longest = [&[0x03, 0x80, 0x00][..], &[0x41; 32_768]].concat();
    let script = Script::read(&longest);
    assert_eq!((script.records.len(), script.rest.len()), (1, 0));
    both_ways(&format!("record 03 {}\n", "41".repeat(32_768)), &longest);
    let longer = [&[0x03, 0x80, 0x01][..], &[0x41; 32_769]].concat();
    let script = Script::read(&longer);
    assert_eq!((script.records.len(), script.rest.len()), (0, longer.len()));
    both_ways(&format!("bytes 038001{}\n", "41".repeat(32_769)), &longer);
}
