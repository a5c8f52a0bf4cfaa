//! Rooms that no call wrote: each call answers 7 and changes nothing, or serves the state that the bytes record.

use differential::emulated;
use differential::random::Random;
use judge::both::Both;
use judge::call::{id_of, Call};
use judge::draws;
use judge::met::{calls, Met};
use judge::reader::{read, record, SIZE};
use judge::writer::written;
use judge::Judge;
use stranvek::boundary::Answer;
use stranvek::numbers::NO_STATE;

/// Rooms of some active transactions and entries, by random calls.
fn good_rooms(count: usize, seed: u64) -> Vec<Vec<u8>> {
    let mut random = Random::seeded(seed);
    let mut rooms = Vec::new();
    while rooms.len() < count {
        let mut both = Both::fresh(7, random.byte());
        for _ in 0..30 {
            let last = both.judge.state.last;
            both.call(&draws::call(&mut random, last));
        }
        let (state, used) = record(&both.room).expect("a state");
        assert!(written(&state) == both.room[..used], "one state has one record");
        let known = state.active.iter().any(|txn| txn.id == [0; 16]);
        if known && !state.entries.is_empty() && used < 500 {
            both.room.truncate(SIZE);
            rooms.push(both.room);
        }
    }
    rooms
}

#[test]
fn one_byte_changed_within_the_record() {
    let calls = calls();
    let mut met = Met::default();
    for (n, room) in good_rooms(6, 21).iter().enumerate() {
        let (_, used) = record(room).expect("a state");
        for at in 0..used {
            // In the first room every other byte, in the others those that are near or far.
            for change in 1..=255u8 {
                if n == 0 || [1, 2, 0x10, 0x80, 0xff].contains(&change) {
                    let mut other = room.clone();
                    other[at] ^= change;
                    met.serve(&other, &calls);
                }
            }
        }
    }
    println!("{:?}", met);
    assert!(met.refused > 10_000 && met.served > 10_000);
}

#[test]
fn one_byte_changed_anywhere() {
    let calls = [Call::Commit(id_of(0), 20), Call::Check(id_of(0))];
    let mut met = Met::default();
    for mut room in good_rooms(1, 22) {
        for at in 0..SIZE {
            room[at] ^= 0x41;
            met.serve(&room, &calls);
            room[at] ^= 0x41;
        }
    }
    println!("{:?}", met);
    assert_eq!(met.refused + met.served, 2 * SIZE as u64);
    assert!(
        met.refused > 100 && met.served > SIZE as u64,
        "bytes in the record and bytes behind it"
    );
}

#[test]
fn rooms_of_random_bytes() {
    let mut random = Random::seeded(23);
    let calls = calls();
    let good = good_rooms(40, 24);
    let mut met = Met::default();
    let rooms = emulated::draws(20_000);
    for n in 0..rooms {
        let mut room = random.pick(&good.iter().collect::<Vec<_>>()).clone();
        let (_, used) = record(&room).expect("a state");
        match n % 4 {
            // Any bytes; any bytes after a stamp and small counts; a tail of any bytes; a few bytes changed.
            0 => room = random.bytes(SIZE),
            1 => {
                room[16..].copy_from_slice(&random.bytes(SIZE - 16));
                let counts = [0, random.below(2) as u8, 0, random.below(3) as u8];
                room[16..20].copy_from_slice(&counts);
            }
            2 => {
                let from = random.below(used);
                let tail = random.bytes(SIZE - from);
                room[from..].copy_from_slice(&tail);
            }
            _ => {
                for _ in 0..2 + random.below(3) {
                    room[random.below(used)] = random.pick(&[0, 1, 2, 3, 0x10, 0x11, 0x61, 0xff]);
                }
            }
        }
        met.serve(&room, &calls);
    }
    println!("{:?}", met);
    assert!(met.refused > rooms / 2 && met.served > rooms / 20);
}

#[test]
fn rooms_cut_at_each_length() {
    let calls: Vec<Call> = calls().into_iter().chain([Call::New(3)]).collect();
    let room = &good_rooms(1, 25)[0];
    for length in 0..SIZE {
        let mut cut = room[..length].to_vec();
        for call in &calls {
            let answer = call.ask(&mut cut);
            assert_eq!(answer, Answer { status: NO_STATE, value: 0 }, "{} bytes", length);
        }
        assert!(cut == room[..length], "{} bytes", length);
    }
}

#[test]
fn rooms_longer_than_the_size() {
    let calls = calls();
    for room in good_rooms(10, 26) {
        for more in [0, 1, 2, 7, 512, 70_000] {
            let long = [&room[..], &vec![0xc3; more]].concat();
            let mut met = Met::default();
            met.serve(&long, &calls);
            assert_eq!(met.served, calls.len() as u64);
        }
    }
}

#[test]
fn fresh_ignores_what_a_room_held() {
    let mut random = Random::seeded(27);
    for last in [0, 1, 7, u64::MAX] {
        let mut room = random.bytes(SIZE + 5);
        let beyond = room[SIZE..].to_vec();
        let answer = Call::New(last).ask(&mut room);
        assert_eq!(answer, Answer { status: 0, value: last });
        assert_eq!(read(&room), Some(Judge::fresh(last).state));
        assert!(room[SIZE..] == beyond);
    }
}
