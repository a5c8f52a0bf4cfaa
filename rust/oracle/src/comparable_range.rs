include!("slatedb/comparable_range.rs");

/// `Bound::as_ref` for compilers before 1.65, which do not have it yet.
trait BoundAsRef<T> {
    fn as_ref(&self) -> Bound<&T>;
}

impl<T> BoundAsRef<T> for Bound<T> {
    fn as_ref(&self) -> Bound<&T> {
        match self {
            Bound::Included(key) => Bound::Included(key),
            Bound::Excluded(key) => Bound::Excluded(key),
            Bound::Unbounded => Bound::Unbounded,
        }
    }
}

/// A `ComparableRange`, open to the tests; any two bounds make one.
pub struct ComparableProbe<T: Ord>(ComparableRange<T>);

impl<T: Ord + Clone> ComparableProbe<T> {
    pub fn new(start: Bound<T>, end: Bound<T>) -> Self {
        ComparableProbe(ComparableRange::new(start, end))
    }

    pub fn start(&self) -> Bound<&T> {
        self.0.start_bound()
    }

    pub fn end(&self) -> Bound<&T> {
        self.0.end_bound()
    }

    pub fn compare_start(&self, other: &Self) -> Ordering {
        self.0.start.cmp(&other.0.start)
    }

    pub fn compare_end(&self, other: &Self) -> Ordering {
        self.0.end.cmp(&other.0.end)
    }

    pub fn compare(&self, other: &Self) -> Ordering {
        self.0.cmp(&other.0)
    }

    pub fn non_empty(&self) -> bool {
        self.0.non_empty()
    }

    pub fn contains(&self, key: &T) -> bool {
        self.0.contains(key)
    }

    pub fn are_adjacent(&self, other: &Self) -> bool {
        self.0.are_adjacent(&other.0)
    }

    pub fn intersect(&self, other: &Self) -> Option<Self> {
        self.0.intersect(&other.0).map(ComparableProbe)
    }

    pub fn union(&self, other: &Self) -> Option<Self> {
        self.0.union(&other.0).map(ComparableProbe)
    }

    /// Whether Rust's `max` takes the other's start: told by reference, since an unbounded start has no key to tell it by.
    pub fn max_start_is_others(&self, other: &Self) -> bool {
        let greater: &StartBound<T> = max(&self.0.start, &other.0.start);
        std::ptr::eq(greater, &other.0.start)
    }

    /// Whether Rust's `min` takes the other's end.
    pub fn min_end_is_others(&self, other: &Self) -> bool {
        let lesser: &EndBound<T> = min(&self.0.end, &other.0.end);
        std::ptr::eq(lesser, &other.0.end)
    }

    /// Whether Rust's `max` takes the other's end.
    pub fn max_end_is_others(&self, other: &Self) -> bool {
        let greater: &EndBound<T> = max(&self.0.end, &other.0.end);
        std::ptr::eq(greater, &other.0.end)
    }
}
