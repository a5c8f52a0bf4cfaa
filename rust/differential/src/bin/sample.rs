//! Writes the fixed sample of the range part that crates/sample replays: `sample QUERIES ANSWERS`.

use differential::sample::Sample;
use std::{env, fs};

fn main() {
    let mut arguments = env::args_os().skip(1);
    let mut path = || arguments.next().expect("two paths: the queries' and the answers'");
    let (queries, answers) = (path(), path());
    let sample = Sample::whole();
    fs::write(queries, &sample.queries).expect("the queries are written");
    fs::write(answers, &sample.answers).expect("the answers are written");
    println!("{} records, {} bytes", sample.records, sample.queries.len());
}
