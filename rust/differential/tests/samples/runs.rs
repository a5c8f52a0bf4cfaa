//! The sample of runs.

use crate::stored;
use judge::runs::Sample;

#[test]
fn the_stored_sample() {
    let sample = Sample::whole();
    println!("{} runs, {} answers", sample.runs, sample.answers());
    println!("statuses 0 to 7: {:?}, conflicts {}", sample.statuses, sample.conflicts);
    assert!(stored("runs/stdin") == sample.records, "the records; the program runs writes them");
    assert!(stored("runs/stdout") == sample.lines.as_bytes(), "the answers");
    let lines = sample.lines.lines().count();
    assert_eq!(lines, sample.runs + sample.answers());
}

#[test]
fn every_status_and_verdict_is_met() {
    let sample = Sample::whole();
    assert!(sample.answers() > 4_000);
    assert!(sample.statuses[..6].iter().all(|&n| n > 20), "{:?}", sample.statuses);
    assert!(sample.statuses[6] > 10 && sample.statuses[7] == 0, "{:?}", sample.statuses);
    assert!(sample.conflicts > 100, "{}", sample.conflicts);
}

/// Document 01 prints this run's lines, so they hold the judge and the forms to it.
#[test]
fn script_p_is_the_first_run() {
    let sample = Sample::whole();
    let records = [&[0; 9], &stored("replay/stdin")[..]].concat();
    let lines = [b"run 0\n", &stored("replay/stdout")[..]].concat();
    assert_eq!(sample.records[..records.len()], records);
    assert_eq!(&sample.lines.as_bytes()[..lines.len()], lines);
}
