//! Document 01's edges that are not proved, through the program: the lines are written from the document, not by the judge.

use crate::program::replay;
use judge::call::{field, id_of, list_of, Call};
use judge::records::record;

/// Calls and the line due for each.
#[derive(Default)]
struct Story {
    script: Vec<u8>,
    lines: String,
    count: usize,
}

impl Story {
    fn then(&mut self, call: Call, line: &str) {
        self.script.extend(record(&call));
        self.lines.extend([line, "\n"]);
        self.count += 1;
    }

    fn told(&self, count: usize) {
        assert_eq!(replay(&self.script), self.lines);
        assert_eq!(self.count, count);
    }
}

fn begin(name: u8) -> Call {
    Call::NewTransaction(id_of(name))
}

fn write<K: AsRef<[u8]>>(name: u8, keys: &[K]) -> Call {
    Call::Writes(id_of(name), list_of(keys))
}

/// A key of its own for each number.
fn key(n: u16) -> Vec<u8> {
    n.to_be_bytes().to_vec()
}

fn keys(numbers: std::ops::Range<u16>) -> Vec<Vec<u8>> {
    numbers.map(key).collect()
}

fn everything() -> Vec<u8> {
    [field(0x10, &[]), field(0x10, &[])].concat()
}

/// "Key of 512 bytes kept, 513 status 4."
#[test]
fn the_longest_key() {
    let longest = vec![0x61; 512];
    let other = [&longest[..511], &[0x62]].concat();
    let longer = vec![0x61; 513];
    let from = |key: &[u8]| [field(0x11, key), field(0x10, &[])].concat();
    let mut story = Story::default();
    story.then(begin(b'A'), "0 0");
    story.then(write(b'A', &[&longest]), "0 1");
    story.then(write(b'A', &[&longest]), "0 0");
    story.then(write(b'A', &[&longer]), "4 0");
    story.then(write(b'A', &[&longer[..1], &longer]), "4 0");
    story.then(Call::Reads(id_of(b'A'), list_of(&[&longer])), "4 0");
    // The whole form is judged first.
    story.then(Call::Reads(id_of(b'A'), [list_of(&[&longer]), vec![0x4b, 0]].concat()), "2 0");
    story.then(Call::Range(id_of(b'A'), from(&longer)), "4 0");
    story.then(Call::Batch(list_of(&[&longer]), 9), "4 0");
    story.then(write(b'Z', &[&longer]), "4 0");
    // It is kept whole: another of its length is no conflict, and it is one.
    story.then(Call::Batch(list_of(&[&other]), 9), "0 9");
    story.then(Call::Check(id_of(b'A')), "0 0");
    story.then(Call::Batch(list_of(&[&longest]), 9), "0 9");
    story.then(Call::Check(id_of(b'A')), "0 1");
    story.then(Call::Range(id_of(b'A'), from(&longest)), "0 1");
    story.told(15);
}

/// "32nd begin done, 33rd status 6; repeating an active id with 32 active is 3."
#[test]
fn the_last_transaction() {
    let mut story = Story::default();
    for name in 1..=32 {
        story.then(begin(name), "0 0");
    }
    story.then(begin(33), "6 0");
    story.then(begin(32), "3 0");
    story.then(begin(1), "3 0");
    story.then(Call::Check(id_of(33)), "1 0");
    story.then(Call::Drop(id_of(1)), "0 0");
    story.then(begin(33), "0 0");
    story.then(begin(1), "6 0");
    story.told(39);
}

/// "Mark 1,024 fits, 1,025 not."
#[test]
fn the_last_mark() {
    let mut story = Story::default();
    story.then(begin(b'A'), "0 0");
    story.then(begin(b'B'), "0 0");
    story.then(write(b'A', &keys(0..1_023)), "0 1023");
    // Of a list that does not fit nothing is kept.
    story.then(write(b'B', &keys(0..2)), "6 0");
    story.then(write(b'B', &keys(0..1)), "0 1");
    story.then(write(b'B', &keys(1..2)), "6 0");
    story.then(write(b'B', &keys(0..1)), "0 0");
    story.then(Call::Reads(id_of(b'B'), list_of(&[""])), "6 0");
    story.then(Call::Range(id_of(b'B'), everything()), "6 0");
    story.then(Call::Batch(list_of(&["k"]), 9), "6 0");
    story.then(Call::Batch(Vec::new(), 9), "0 9");
    story.then(Call::Drop(id_of(b'B')), "0 1");
    story.then(Call::Range(id_of(b'A'), everything()), "0 1");
    story.then(Call::Range(id_of(b'A'), everything()), "6 0");
    story.told(14);
}

#[test]
fn a_list_of_1025_marks() {
    let mut story = Story::default();
    story.then(begin(b'A'), "0 0");
    story.then(write(b'A', &keys(0..1_025)), "6 0");
    story.then(write(b'A', &keys(0..1_024)), "0 1024");
    story.then(write(b'A', &keys(1_024..1_025)), "6 0");
    story.told(4);
}

/// "With 128 entries the only active transaction still commits."
#[test]
fn the_last_entry() {
    let mut story = Story::default();
    story.then(begin(b'A'), "0 0");
    story.then(begin(b'B'), "0 0");
    story.then(write(b'A', &keys(0..1)), "0 1");
    for n in 1..=128 {
        story.then(Call::Batch(list_of(&[key(n)]), n.into()), &format!("0 {}", n));
    }
    story.then(Call::Batch(Vec::new(), 129), "6 0");
    story.then(Call::Commit(id_of(b'A'), 129), "6 0");
    story.then(Call::Commit(id_of(b'B'), 129), "6 0");
    // Both starts are 0, so that nothing is pruned.
    story.then(Call::Drop(id_of(b'B')), "0 128");
    story.then(Call::Batch(Vec::new(), 129), "6 0");
    story.then(Call::Commit(id_of(b'A'), 129), "0 129");
    story.then(Call::Minimum, "1 0");
    story.then(begin(b'A'), "0 129");
    story.then(Call::Batch(list_of(&["k"]), 130), "0 130");
    story.told(140);
}

/// The fourth ceiling: 32,768 key bytes.
#[test]
fn the_last_key_byte() {
    let long = |n: u8| [vec![n], vec![0x61; 511]].concat();
    let half = |from: u8| (from..from + 32).map(long).collect::<Vec<_>>();
    let mut story = Story::default();
    story.then(begin(b'A'), "0 0");
    story.then(write(b'A', &half(0)), "0 32");
    story.then(write(b'A', &half(32)), "0 32");
    story.then(write(b'A', &["k"]), "6 0");
    story.then(write(b'A', &[""]), "0 1");
    story.then(Call::Range(id_of(b'A'), everything()), "0 1");
    story.then(Call::Batch(list_of(&["k"]), 9), "6 0");
    story.told(7);
}
