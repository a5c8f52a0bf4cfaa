include!("slatedb/bytes_range.rs");

/// `Bound::map` for compilers before 1.77, which do not have it yet.
trait BoundMap<T> {
    fn map<U>(self, f: impl FnOnce(T) -> U) -> Bound<U>;
}

impl<T> BoundMap<T> for Bound<T> {
    fn map<U>(self, f: impl FnOnce(T) -> U) -> Bound<U> {
        match self {
            Bound::Included(key) => Bound::Included(f(key)),
            Bound::Excluded(key) => Bound::Excluded(f(key)),
            Bound::Unbounded => Bound::Unbounded,
        }
    }
}

/// A `BytesRange`, open to the tests.
#[derive(Clone)]
pub struct BytesProbe(BytesRange);

impl BytesProbe {
    /// Panics for a range that is empty by the rule.
    pub fn new(start: Bound<Bytes>, end: Bound<Bytes>) -> Self {
        BytesProbe(BytesRange::new(start, end))
    }

    pub fn try_new(start: Bound<Bytes>, end: Bound<Bytes>) -> Option<Self> {
        BytesRange::try_new(start, end).map(BytesProbe)
    }

    /// Any two bounds, those of an empty range too, which no constructor lets through.
    pub fn of(start: Bound<Bytes>, end: Bound<Bytes>) -> Self {
        BytesProbe(BytesRange { inner: ComparableRange::new(start, end) })
    }

    pub fn from_prefix(prefix: &[u8]) -> Self {
        BytesProbe(BytesRange::from_prefix(prefix))
    }

    /// Panics where the joined bounds are empty by the rule.
    pub fn from_prefix_and_subrange(prefix: &[u8], start: Bound<&[u8]>, end: Bound<&[u8]>) -> Self {
        BytesProbe(BytesRange::from_prefix_and_subrange(prefix, (start, end)))
    }

    pub(crate) fn into_range(self) -> BytesRange {
        self.0
    }

    pub fn start(&self) -> Bound<&[u8]> {
        ByteRangeBounds::start_bound(&self.0)
    }

    pub fn end(&self) -> Bound<&[u8]> {
        ByteRangeBounds::end_bound(&self.0)
    }

    pub fn contains(&self, key: &Bytes) -> bool {
        self.0.contains(key)
    }

    pub fn as_point(&self) -> Option<&Bytes> {
        self.0.as_point()
    }
}

pub fn increment_prefix(prefix: &[u8]) -> Option<Bytes> {
    BytesRange::increment_prefix(prefix)
}
