//! Scripts that fill the room.

use crate::compared::Compared;
use differential::random::Random;
use judge::call::{id_of, list_of, Call};
use judge::draws;
use judge::records::record;

/// A call that asks for much: many ids, long lists, long keys.
fn large(random: &mut Random, last: u64) -> Call {
    let id = id_of(random.below(40) as u8);
    let length = random.pick(&[2, 2, 40, 512]);
    let keys = |random: &mut Random, count: usize| {
        let key = |random: &mut Random| [vec![random.byte()], vec![0x61; length - 1]].concat();
        list_of(&(0..count).map(|_| key(random)).collect::<Vec<_>>())
    };
    let count = random.below(40);
    match random.below(20) {
        0..=6 => Call::NewTransaction(id),
        7..=9 => Call::Writes(id, keys(random, count)),
        10..=11 => Call::Reads(id, keys(random, count)),
        12..=17 => Call::Batch(keys(random, 1), draws::sequence(random, last)),
        18 => Call::Commit(id, draws::sequence(random, last)),
        _ => Call::Check(id),
    }
}

#[test]
fn random_scripts_that_fill_the_room() {
    let mut random = Random::seeded(50);
    let mut compared = Compared::default();
    for _ in 0..40 {
        let calls = (0..400).flat_map(|n| record(&large(&mut random, n)));
        compared.script(&calls.collect::<Vec<u8>>());
    }
    println!("{}", compared);
    assert_eq!((compared.scripts, compared.lines, compared.stops), (40, 16_000, 0));
    assert!(compared.statuses[6] > 1_000);
}
