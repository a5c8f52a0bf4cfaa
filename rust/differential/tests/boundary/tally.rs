use std::fmt::Debug;

/// Counts comparisons, so that a test cannot pass by comparing nothing.
#[derive(Default)]
pub struct Tally {
    compared: u64,
}

impl Tally {
    /// One comparison of the library's answer with the oracle's.
    pub fn same<T: PartialEq + Debug>(&mut self, ours: T, theirs: T, about: &impl Debug) {
        self.compared += 1;
        assert!(
            ours == theirs,
            "the library says {:02x?}, the oracle {:02x?}, about {:02x?}",
            ours,
            theirs,
            about
        );
    }

    pub fn add(&mut self, other: Tally) {
        self.compared += other.compared;
    }

    pub fn close(self, due: usize) {
        println!("compared {}", self.compared);
        assert_eq!(self.compared, due as u64, "comparisons made and due");
    }
}
