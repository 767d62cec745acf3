//! Sets of versions, as segments that ascend. Stands in for the crate `version-ranges` where no registry is at hand: what `pep440_rattle` calls
//! of it, and its tests.
use std::ops::{Bound, RangeBounds};

/// A set of versions.
#[derive(Clone, Debug, PartialEq, Eq)]
pub struct Ranges<V> {
    segments: Vec<(Bound<V>, Bound<V>)>,
}

/// Whether a segment that ends here lies below one that starts there.
fn is_below<V: Ord>(end: &Bound<V>, start: &Bound<V>) -> bool {
    match (end, start) {
        (Bound::Unbounded, _) | (_, Bound::Unbounded) => false,
        (Bound::Included(end), Bound::Included(start)) => end < start,
        (Bound::Included(end) | Bound::Excluded(end), Bound::Included(start) | Bound::Excluded(start)) => end <= start,
    }
}

impl<V: Ord + Clone> Ranges<V> {
    pub fn empty() -> Self {
        Ranges { segments: Vec::new() }
    }

    pub fn from_range_bounds<R: RangeBounds<W>, W: Clone + Into<V>>(bounds: R) -> Self {
        let bound = |bound: Bound<&W>| bound.map(|version| version.clone().into());
        Ranges { segments: vec![(bound(bounds.start_bound()), bound(bounds.end_bound()))] }
    }

    /// Of sets of which the first lies below the other one.
    pub fn union(&self, other: &Self) -> Self {
        if let (Some((_, end)), Some((start, _))) = (self.segments.last(), other.segments.first()) {
            assert!(is_below(end, start), "the segments do not ascend");
        }
        Ranges { segments: [self.segments.as_slice(), &other.segments].concat() }
    }

    pub fn contains(&self, version: &V) -> bool {
        self.segments.iter().any(|segment| segment.contains(version))
    }

    pub fn iter(&self) -> impl Iterator<Item = (&Bound<V>, &Bound<V>)> {
        self.segments.iter().map(|(start, end)| (start, end))
    }
}
