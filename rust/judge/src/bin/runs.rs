//! Writes the fixed sample of runs that crates/runs replays: `runs RECORDS ANSWERS`.

use judge::runs::Sample;
use std::{env, fs};

fn main() {
    let mut arguments = env::args_os().skip(1);
    let mut path = || arguments.next().expect("two paths: the records' and the answers'");
    let (records, answers) = (path(), path());
    let sample = Sample::whole();
    fs::write(records, &sample.records).expect("the records are written");
    fs::write(answers, &sample.lines).expect("the answers are written");
    println!("{} runs, {} answers, {} bytes", sample.runs, sample.answers(), sample.records.len());
    println!("statuses 0 to 7: {:?}, conflicts {}", sample.statuses, sample.conflicts);
}
