//! Scripts that are cut at every byte, and runs that are killed there.

use crate::compared::Compared;
use crate::expected::expected;
use crate::program::Waiting;
use crate::whole::P;
use differential::random::Random;
use judge::draws;
use judge::records::places;

fn longer() -> Vec<u8> {
    draws::script(&mut Random::seeded(42), 40)
}

#[test]
fn a_script_cut_at_every_byte() {
    for (script, records) in [(P.to_vec(), 15), (longer(), 40)] {
        let places = places(&script);
        assert_eq!(places.len(), records + 1);
        let mut compared = Compared::default();
        for n in 0..=script.len() {
            let stops = compared.stops;
            compared.script(&script[..n]);
            let inside = usize::from(!places.contains(&n));
            assert_eq!(compared.stops - stops, inside, "cut at {}", n);
        }
        println!("{} bytes: {}", script.len(), compared);
        let cuts = script.len() + 1;
        assert_eq!((compared.scripts, compared.stops), (cuts, cuts - places.len()));
    }
}

/// The lines come while the input is open; then the run is killed, or its input closed.
fn fed_and_ended(script: &[u8], end: fn(Waiting) -> String) -> (String, String) {
    let mut waiting = Waiting::start();
    waiting.feed(script);
    let lines = expected(script).answers.iter().map(|_| waiting.line()).collect();
    (lines, end(waiting))
}

#[test]
fn a_run_killed_at_every_byte_has_the_lines_of_the_cut() {
    let mut lines = 0;
    for n in 0..=P.len() {
        let due = expected(&P[..n]);
        let (before, after) = fed_and_ended(&P[..n], Waiting::kill);
        assert_eq!((before, &after[..]), (due.lines().concat(), ""), "killed at {}", n);
        lines += due.answers.len();
    }
    println!("{} runs killed, {} lines", P.len() + 1, lines);
    assert!(lines > P.len());
}

#[test]
fn a_run_closed_at_every_byte_is_the_cut() {
    let mut stops = 0;
    for n in 0..=P.len() {
        let due = expected(&P[..n]);
        let (before, after) = fed_and_ended(&P[..n], Waiting::close);
        assert_eq!(before + &after, due.text(), "closed at {}", n);
        stops += usize::from(!after.is_empty());
    }
    println!("{} runs closed, {} stops", P.len() + 1, stops);
    assert_eq!(stops, P.len() + 1 - places(P).len());
}
