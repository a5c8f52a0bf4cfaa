//! Scripts that nobody meant.

use crate::compared::Compared;
use crate::whole::P;
use differential::emulated;
use differential::random::Random;
use judge::draws;
use judge::records::places;

#[test]
fn random_bytes() {
    let mut random = Random::seeded(46);
    let mut compared = Compared::default();
    let scripts = emulated::draws(1_500);
    for n in 0..scripts {
        let length = random.below(200);
        let mut script = random.bytes(length);
        // Small numbers are often tags and lengths.
        if n % 3 > 0 {
            let small = [0, 0, 0, 1, 2, 3, 4, 5, 6, 7, 8, 9, 16];
            script.iter_mut().for_each(|byte| *byte = random.pick(&small));
        }
        compared.script(&script);
    }
    println!("{}", compared);
    assert_eq!(compared.scripts, scripts);
    assert!(compared.stops > scripts / 3 * 2 && compared.statuses[2] > scripts / 15);
}

#[test]
fn one_byte_of_script_p_changed() {
    let mut compared = Compared::default();
    for at in 0..P.len() {
        for change in [0x01, 0x08, 0x80, 0xff] {
            let mut script = P.to_vec();
            script[at] ^= change;
            compared.script(&script);
        }
    }
    println!("{}", compared);
    assert_eq!(compared.scripts, 4 * P.len());
    assert!(compared.stops > 100 && compared.statuses[1] > 1_000 && compared.statuses[2] > 50);
}

#[test]
fn one_byte_of_longer_scripts_changed() {
    let mut random = Random::seeded(47);
    let mut compared = Compared::default();
    let scripts = emulated::draws(1_000);
    for _ in 0..scripts {
        let mut script = draws::script(&mut random, 60);
        let at = random.below(script.len());
        script[at] ^= 1 + random.below(255) as u8;
        compared.script(&script);
    }
    println!("{}", compared);
    assert_eq!(compared.scripts, scripts);
    assert!(compared.stops > scripts / 20 && compared.lines > 30 * scripts);
}

#[test]
fn unknown_tags_at_every_place() {
    let mut compared = Compared::default();
    let places = places(P);
    for &at in &places {
        for tag in [0x00, 0x0a, 0x10, 0x4b, 0x81, 0xff] {
            // In front of a record, which is then never read; alone; and in its place.
            compared.script(&[&P[..at], &[tag], &P[at..]].concat());
            compared.script(&[&P[..at], &[tag]].concat());
            let mut script = [P, &[0x01, 0, 0]].concat();
            script[at] = tag;
            compared.script(&script);
        }
    }
    println!("{}", compared);
    let count = places.len() * 6 * 3;
    assert_eq!((compared.scripts, compared.stops), (count, count));
    // Each place has the lines of the records before it, and the stop.
    assert_eq!(compared.lines, (0..16).map(|before| 18 * (before + 1)).sum::<usize>());
}

#[test]
fn every_unknown_tag() {
    let mut compared = Compared::default();
    for tag in (0..=255u8).filter(|tag| !(1..=9).contains(tag)) {
        compared.script(&[&P[..19], &[tag, 0, 0]].concat());
    }
    assert_eq!((compared.scripts, compared.lines, compared.stops), (247, 494, 247));
}
