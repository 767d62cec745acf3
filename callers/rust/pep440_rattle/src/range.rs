//! Ranges as the library writes them: two bounds for each segment, each a kind and the bytes of its version.
use crate::bytes::VERSION;
use crate::calls::{self, Pairs};
use crate::{RangeError, Version};
use alloc::vec::Vec;
use core::ops::Bound;

/// A segment of a range: its lower and its upper bound.
///
/// ```
/// use pep440_rattle::{Segment, Version, VersionSpecifier};
/// use std::ops::Bound;
///
/// let above: Segment = (Bound::Included(Version::new([1])), Bound::Unbounded);
/// assert_eq!(">=1".parse::<VersionSpecifier>().unwrap().ranges(), Ok(vec![above]));
/// ```
pub type Segment = (Bound<Version>, Bound<Version>);

/// The range of a compiled list.
pub(crate) fn of_list(list: &[u8]) -> Result<Vec<Segment>, RangeError> {
    calls::range_bounds(list, read)
}

/// Its range by releases alone.
pub(crate) fn of_releases(list: &[u8]) -> Result<Vec<Segment>, RangeError> {
    calls::release_range_bounds(list, read)
}

fn read(segments: Pairs) -> Vec<Segment> {
    segments.map(|[low, high]| (read_bound(low), read_bound(high))).collect()
}

fn read_bound(bytes: &[u8]) -> Bound<Version> {
    match bytes {
        [0] => Bound::Unbounded,
        [1, VERSION, version @ ..] => Bound::Included(Version::from_bytes(version)),
        [2, VERSION, version @ ..] => Bound::Excluded(Version::from_bytes(version)),
        _ => panic!("{}", calls::WRITTEN),
    }
}
