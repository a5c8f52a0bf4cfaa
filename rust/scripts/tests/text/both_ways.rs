//! Any bytes to text and back.

use crate::draws;
use differential::emulated;
use differential::random::Random;
use scripts::{parse, Record, Script};

/// Scripts of each test.
const SCRIPTS: usize = 40_000;

/// What was met, so that no form goes untried.
#[derive(Debug, Default)]
struct Met {
    scripts: usize,
    calls: usize,
    malformed: usize,
    rests: usize,
}

impl Met {
    fn both_ways(&mut self, bytes: &[u8]) {
        let script = Script::read(bytes);
        let text = script.to_string();
        let again = parse(text.as_bytes()).unwrap_or_else(|fault| panic!("{}\n{}", fault, text));
        assert!(again.bytes() == bytes, "{:02x?} came back as another script:\n{}", bytes, text);
        assert_eq!(again, script, "one script for a text");
        let malformed = |record: &&Record| matches!(record, Record::Malformed(..));
        let bad = script.records.iter().filter(malformed).count();
        self.scripts += 1;
        self.calls += script.records.len() - bad;
        self.malformed += bad;
        self.rests += usize::from(!script.rest.is_empty());
    }
}

#[test]
fn well_formed_scripts() {
    let mut random = Random::seeded(31);
    let mut met = Met::default();
    let mut drawn = 0;
    let scripts = emulated::draws(SCRIPTS);
    for _ in 0..scripts {
        let (count, bytes) = draws::well_formed(&mut random);
        drawn += count;
        met.both_ways(&bytes);
    }
    println!("{:?}", met);
    assert_eq!((met.scripts, met.calls, met.malformed, met.rests), (scripts, drawn, 0, 0));
    assert!(drawn > scripts / 2 * 5);
}

#[test]
fn damaged_scripts() {
    let mut random = Random::seeded(32);
    let mut met = Met::default();
    let scripts = emulated::draws(SCRIPTS);
    for _ in 0..scripts {
        met.both_ways(&draws::damaged(&mut random));
    }
    println!("{:?}", met);
    assert_eq!(met.scripts, scripts);
    assert!(met.calls > scripts / 4 * 5 && met.malformed > scripts / 8 && met.rests > scripts / 4);
}

#[test]
fn random_bytes() {
    let mut random = Random::seeded(33);
    let mut met = Met::default();
    let scripts = emulated::draws(SCRIPTS);
    for _ in 0..scripts {
        met.both_ways(&draws::any_bytes(&mut random));
    }
    println!("{:?}", met);
    assert_eq!(met.scripts, scripts);
    assert!(met.malformed > scripts / 4 && met.rests > scripts / 2);
}
