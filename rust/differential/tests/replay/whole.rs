//! Whole scripts.

use crate::compared::Compared;
use crate::program::replay;
use differential::emulated;
use differential::random::Random;
use judge::draws;

pub const P: &[u8] = include_bytes!("../../../../crates/replay/stdin");

/// Document 01's lines for script P.
const P_LINES: &str = "\
0 0
0 0
0 1
0 1
0 0
0 7
0 1
0 7
0 1
0 0
0 1
0 7
1 9
0 0
1 0
";

#[test]
fn script_p() {
    assert_eq!(replay(P), P_LINES);
    let mut compared = Compared::default();
    compared.script(P);
    assert_eq!((compared.scripts, compared.lines, compared.stops), (1, 15, 0));
}

#[test]
fn no_input() {
    assert_eq!(replay(&[]), "");
}

#[test]
fn random_scripts() {
    let mut random = Random::seeded(41);
    let mut compared = Compared::default();
    let scripts = emulated::draws(400);
    for _ in 0..scripts {
        compared.script(&draws::script(&mut random, 100));
    }
    println!("{}", compared);
    assert_eq!((compared.scripts, compared.lines, compared.stops), (scripts, 100 * scripts, 0));
    assert!(compared.statuses[..6].iter().all(|&met| met > scripts / 4));
}
