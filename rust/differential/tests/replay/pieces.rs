//! Feeding in pieces changes nothing.

use crate::compared::Compared;
use crate::expected::expected;
use crate::program::Waiting;
use crate::whole::P;
use differential::random::Random;
use judge::draws;
use judge::records::places;

#[test]
fn pieces_of_every_size() {
    let mut random = Random::seeded(43);
    let mut compared = Compared::default();
    for length in (1..=40).chain([64, 100, 281, 1_000]) {
        compared.pieces(P, &[length]);
        compared.pieces(&P[..P.len() - 1], &[length]);
    }
    for _ in 0..40 {
        let script = draws::script(&mut random, 60);
        let some: Vec<usize> = (0..script.len()).map(|_| 1 + random.below(50)).collect();
        for lengths in [&[1][..], &[7], &some] {
            compared.pieces(&script, lengths);
        }
    }
    println!("{}", compared);
    assert_eq!((compared.scripts, compared.stops), (88 + 120, 44));
    assert_eq!(compared.lines, 44 * 15 + 44 * 15 + 120 * 60);
}

/// A head that ends the run ends it however few of its bytes have come, and what follows changes nothing.
#[test]
fn pieces_of_scripts_that_stop() {
    let mut random = Random::seeded(44);
    let mut compared = Compared::default();
    for end in [&[0x00][..], &[0x0a, 0, 0], &[0x01, 0x80, 0x01], &[0x09, 0xff, 0xff, 0]] {
        for more in [0, 1, 2, 50] {
            let script = [P, end, &random.bytes(more)].concat();
            for length in [1, 2, 3, 7, 100] {
                compared.pieces(&script, &[length]);
            }
        }
    }
    println!("{}", compared);
    assert_eq!((compared.scripts, compared.stops, compared.lines), (80, 80, 80 * 16));
}

#[test]
fn each_line_comes_when_its_record_is_whole() {
    let script = draws::script(&mut Random::seeded(45), 300);
    let lines = expected(&script).lines();
    let mut waiting = Waiting::start();
    for (at, line) in places(&script).windows(2).zip(&lines) {
        waiting.feed(&script[at[0]..at[1] - 1]);
        waiting.feed(&script[at[1] - 1..at[1]]);
        assert_eq!(waiting.line(), *line);
    }
    assert_eq!((waiting.close(), lines.len()), (String::new(), 300));
}
