//! The kept inputs of the fuzzer, replayed without it: the same function, so that it stays alive in every run of the tests.

use fuzz::decoded::Step;
use fuzz::played::Played;
use std::fs;
use std::path::Path;

/// How many inputs are kept; tools/fuzz starts from them.
const KEPT: usize = 60;

/// The statuses that document 01's table has for each call, in the order of `Played`: all of them are met.
const MET: [&[usize]; 10] = [
    &[0, 7],
    &[0, 2, 3, 6, 7],
    &[0, 1, 2, 7],
    &[0, 1, 2, 4, 6, 7],
    &[0, 1, 2, 4, 6, 7],
    &[0, 1, 2, 4, 5, 6, 7],
    &[0, 1, 2, 7],
    &[0, 1, 2, 6, 7],
    &[0, 2, 4, 6, 7],
    &[0, 1, 7],
];

fn kept() -> Vec<Vec<u8>> {
    let folder = Path::new(env!("CARGO_MANIFEST_DIR")).join("corpus");
    let files = fs::read_dir(folder).expect("the corpus");
    files.map(|file| fs::read(file.expect("a file").path()).expect("an input")).collect()
}

#[test]
fn kept_inputs_replayed() {
    let kept = kept();
    assert_eq!(kept.len(), KEPT);
    let mut played = Played::default();
    let mut damaged = 0;
    for input in &kept {
        played.play(input, |step| damaged += usize::from(matches!(step, Step::Damage(..))));
    }
    println!("{} inputs, {} bytes damaged, {:?}", kept.len(), damaged, played);
    assert!(damaged > 0);
    for (call, met) in played.statuses.iter().zip(MET) {
        let statuses: Vec<usize> = (0..8).filter(|&status| call[status] > 0).collect();
        assert_eq!(statuses, met, "{:?}", call);
    }
}
