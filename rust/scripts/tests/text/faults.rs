//! Texts that are refused, with the line and the reason.

use scripts::parse;

fn refused(text: &str, line: usize, reason: &str) {
    let fault = parse(text.as_bytes()).expect_err(text);
    assert_eq!((fault.line, &fault.reason[..]), (line, reason), "{}", text);
    assert_eq!(fault.to_string(), format!("line {}: {}", line, reason));
}

#[test]
fn words_that_are_missing_or_too_many() {
    refused("begin", 1, "an id is missing");
    refused("minimum\n\nwrite # A\n", 3, "an id is missing");
    refused("range A", 1, "a start is missing");
    refused("range A 61..", 1, "an end is missing");
    refused("commit A", 1, "a sequence is missing");
    refused("batch", 1, "a sequence is missing");
    refused("record", 1, "a tag is missing");
    refused("record 01", 1, "a payload is missing");
    refused("bytes", 1, "what ends the run is missing");
    refused("begin A B", 1, "`B` is one word too many");
    refused("# one\nminimum 7", 2, "`7` is one word too many");
    refused("range A .. .. ..", 1, "`..` is one word too many");
    refused("record 01 41 41", 1, "`41` is one word too many");
    refused("bytes 0f 00", 1, "`00` is one word too many");
}

#[test]
fn words_that_are_wrong() {
    refused("begin A\nbegn B", 2, "`begn` is no record");
    refused("Begin A", 1, "`Begin` is no record");
    refused("begin 4", 1, "`4` is no id: one letter, or 32 hex digits");
    refused("begin AB", 1, "`AB` is no id: one letter, or 32 hex digits");
    refused("begin é", 1, "`é` is no id: one letter, or 32 hex digits");
    refused("begin \"\"", 1, "`\"\"` is no id: one letter, or 32 hex digits");
    let hex = "is not pairs of hex digits, nor \"\" for no bytes";
    refused("write A 6", 1, &format!("`6` {}", hex));
    refused("write A 6b 6g", 1, &format!("`6g` {}", hex));
    refused("write A 6b +6", 1, &format!("`+6` {}", hex));
    refused("write A é", 1, &format!("`é` {}", hex));
    refused("batch 9 6b..", 1, &format!("`6b..` {}", hex));
    let sequence = "is no sequence: a decimal number of at most 64 bits";
    refused("commit A +7", 1, &format!("`+7` {}", sequence));
    refused("commit A -7", 1, &format!("`-7` {}", sequence));
    refused("commit A 7a", 1, &format!("`7a` {}", sequence));
    refused("batch 18446744073709551616", 1, &format!("`18446744073709551616` {}", sequence));
    refused("range A 61 ..63", 1, "`61` is no start: KEY.., >KEY or ..");
    refused("range A ..61 ..63", 1, "`..61` is no start: KEY.., >KEY or ..");
    refused("range A 61.. <63", 1, "`<63` is no end: ..KEY, ..=KEY or ..");
    refused("range A 61.. ..6", 1, &format!("`6` {}", hex));
    refused("range A > ..", 1, &format!("`` {}", hex));
    refused("record 0a 00", 1, "`0a` is no tag of a record: 01 to 09");
    refused("record 00 00", 1, "`00` is no tag of a record: 01 to 09");
    refused("record 0101 00", 1, "`0101` is no tag of a record: 01 to 09");
}

#[test]
fn bytes_that_end_no_run() {
    refused("bytes \"\"", 1, "no bytes end no run");
    let whole = "a whole record stands first in these bytes, and ends no run";
    refused("bytes 090000", 1, whole);
    refused("bytes 0900000f", 1, whole);
    refused("bytes 0f\n\nbytes 0f", 3, "nothing may follow `bytes`, which end the run");
    refused("bytes 0f\nminimum", 2, "nothing may follow `bytes`, which end the run");
}

#[test]
fn payloads_and_keys_that_are_too_long() {
    let above = "a payload of 32769 bytes, above 32768";
    refused(&format!("record 01 {}", "00".repeat(32_769)), 1, above);
    refused(&format!("write A {}", "61".repeat(32_769 - 16 - 3)), 1, above);
    refused(
        &format!("batch 9 {}", "61 ".repeat(9_000)),
        1,
        "a payload of 36008 bytes, above 32768",
    );
    let range = format!("range A >{} ..=\"\"", "61".repeat(32_769 - 16 - 6));
    refused(&range, 1, above);
    for length in [32_769, 65_536, 100_000] {
        let reason = format!("a key of {} bytes is longer than any record", length);
        refused(&format!("\nread A 61 {}", "61".repeat(length)), 2, &reason);
        refused(&format!("range A .. ..{}", "61".repeat(length)), 1, &reason);
    }
}

#[test]
fn text_that_is_not_utf_8() {
    let fault = parse(b"begin A\nbegin \xff\n").expect_err("no text");
    assert_eq!((fault.line, &fault.reason[..]), (2, "not UTF-8"));
}
