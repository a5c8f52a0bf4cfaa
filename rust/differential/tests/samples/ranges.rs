//! The sample of the range part.

use crate::stored;
use differential::sample::Sample;

#[test]
fn the_stored_sample() {
    let sample = Sample::whole();
    println!("{} answers, {} bytes", sample.records, sample.queries.len());
    assert!(
        stored("sample/stdin") == sample.queries,
        "the queries; the program sample writes them"
    );
    assert!(stored("sample/stdout") == sample.answers.as_bytes(), "the answers");
    assert_eq!((sample.records, sample.answers.lines().count()), (1_516, 1_516));
}
