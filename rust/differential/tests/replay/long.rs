//! Scripts longer than the program's buffer, whose records straddle its reads.

use crate::compared::Compared;
use crate::expected::expected;
use crate::program::{replay, replay_file, replay_pieces};
use differential::random::Random;
use judge::call::{id_of, list_of, Call};
use judge::draws;
use judge::records::{record, PAYLOAD_LIMIT};

/// What the program can hold, and the most that it holds when it reads on: a longer datagram would be cut.
const BUFFER: usize = 131_072;
const HELD: usize = 3 + PAYLOAD_LIMIT - 1;

/// Random calls, and among them long lists of few keys, so that much is read and little is kept.
fn long_script(random: &mut Random, length: usize) -> Vec<u8> {
    let mut script = Vec::new();
    while script.len() < length {
        script.extend(draws::script(random, 8));
        let count = random.below(6_000);
        let keys: Vec<[u8; 2]> = (0..count).map(|_| [0x6b, random.pick(b"abcdefgh")]).collect();
        let id = id_of(random.pick(&[0, 1]));
        script.extend(record(&Call::Reads(id, list_of(&keys))));
    }
    script
}

#[test]
fn some_megabytes() {
    let script = long_script(&mut Random::seeded(48), 3_000_000);
    let mut compared = Compared::default();
    let due = expected(&script);
    compared.hold(&script, &due, &replay(&script));
    compared.hold(&script, &due, &replay_file(&script));
    for length in [BUFFER - HELD, 65_537, 32_771, 4_099] {
        let pieces: Vec<&[u8]> = script.chunks(length).collect();
        compared.hold(&script, &due, &replay_pieces(&pieces));
    }
    println!("{} bytes: {}", script.len(), compared);
    assert!(script.len() > 20 * BUFFER && due.answers.len() > 1_000);
    assert_eq!((compared.scripts, compared.stops), (6, 0));
}

/// The offset of a stop counts what was read before.
#[test]
fn stops_far_into_a_script() {
    let script = long_script(&mut Random::seeded(49), 400_000);
    let mut compared = Compared::default();
    for end in [&[0x0a][..], &[0x01], &[0x01, 0], &[0x02, 0x80, 0x01], &[0x05, 0, 16, 0x41]] {
        let stopped = [&script[..], end].concat();
        compared.script(&stopped);
        compared.script(&[stopped, vec![0; 200_000]].concat());
        assert_eq!(expected(&[&script[..], end].concat()).stop, Some(script.len()));
    }
    println!("{} bytes: {}", script.len(), compared);
    assert_eq!((compared.scripts, compared.stops), (10, 10));
}
