//! Lists of specifiers.
use crate::bytes;
use crate::calls;
use crate::lazy::Lazy;
use crate::range;
use crate::specifier::{is_next_minor, read_list};
use crate::{RangeError, Segment, Version, VersionSpecifier, VersionSpecifiersParseError};
use alloc::vec;
use alloc::vec::Vec;
use core::cmp::Ordering;
use core::fmt;
use core::hash::{Hash, Hasher};
use core::ops::{Bound, Deref};
use core::str::FromStr;

/// A list of specifiers, as `>=2.1, <3`, in the order of their versions. It contains what each of them does.
///
/// ```
/// use pep440_rattle::{Operator, VersionSpecifiers};
///
/// let list: VersionSpecifiers = "<2.0, >=1.16".parse().unwrap();
/// assert_eq!(list.to_string(), ">=1.16, <2.0");
/// assert_eq!(*list[1].operator(), Operator::LessThan);
/// ```
#[derive(Clone)]
pub struct VersionSpecifiers {
    members: Vec<VersionSpecifier>,
    /// Made when the list is first asked whether it contains a version.
    compiled: Lazy<Vec<u8>>,
}

impl VersionSpecifiers {
    /// The list without a specifier, which contains each version.
    ///
    /// ```
    /// use pep440_rattle::{Version, VersionSpecifiers};
    ///
    /// assert!(VersionSpecifiers::empty().contains(&Version::new([1])));
    /// ```
    #[must_use]
    pub fn empty() -> VersionSpecifiers {
        VersionSpecifiers { members: Vec::new(), compiled: Lazy::new() }
    }

    fn from_unsorted(mut members: Vec<VersionSpecifier>) -> VersionSpecifiers {
        members.sort_by(|left, right| left.version().cmp(right.version()));
        VersionSpecifiers { members, compiled: Lazy::new() }
    }

    /// Whether each specifier contains the version.
    ///
    /// ```
    /// use pep440_rattle::{Version, VersionSpecifiers};
    ///
    /// let list: VersionSpecifiers = ">=1.16, <2.0".parse().unwrap();
    /// assert!(list.contains(&Version::new([1, 19])) && !list.contains(&Version::new([2])));
    /// ```
    #[inline]
    pub fn contains(&self, version: &Version) -> bool {
        #[cfg(feature = "tracing")]
        crate::features::logged::exact_equality(self.iter().map(|member| *member.operator()));
        version.is_in(self.compiled.get_or_init(|| bytes::list(&self.members)))
    }

    /// Whether there is no specifier.
    ///
    /// ```
    /// use pep440_rattle::VersionSpecifiers;
    ///
    /// assert!("".parse::<VersionSpecifiers>().unwrap().is_empty());
    /// ```
    pub fn is_empty(&self) -> bool {
        self.members.is_empty()
    }

    /// The range of the list: its segments in ascending order, none of which touches the next one. A bound may have a sentinel
    /// ([`Version::min`], [`Version::max`]).
    ///
    /// A range goes by the order of versions, so it is not always what [`VersionSpecifiers::contains`] matches: `<=1.0`
    /// contains `1.0+local`, which is above the end of its range.
    ///
    /// ```
    /// use pep440_rattle::{Version, VersionSpecifiers};
    /// use std::ops::Bound;
    ///
    /// let list: VersionSpecifiers = ">=1, <2".parse().unwrap();
    /// let end = Version::new([2]).with_min(Some(0));
    /// assert_eq!(list.ranges().unwrap(), [(Bound::Included(Version::new([1])), Bound::Excluded(end))]);
    /// ```
    ///
    /// # Errors
    ///
    /// [`RangeError::NumberAtMax`] where a bound would need a number above `u64::MAX`; [`RangeError::NotParsed`] where no string parses
    /// to the version of a specifier.
    pub fn ranges(&self) -> Result<Vec<Segment>, RangeError> {
        range::of_list(&bytes::list(self))
    }

    /// The range of the list by releases alone, meant for versions that are a release and nothing else, as those of Python itself:
    /// of each specifier only the operator and the release count.
    ///
    /// ```
    /// use pep440_rattle::{Version, VersionSpecifiers};
    /// use std::ops::Bound;
    ///
    /// let list: VersionSpecifiers = ">3.13rc1".parse().unwrap();
    /// assert_eq!(list.release_ranges().unwrap(), [(Bound::Excluded(Version::new([3, 13])), Bound::Unbounded)]);
    /// ```
    ///
    /// # Errors
    ///
    /// As [`VersionSpecifiers::ranges`].
    pub fn release_ranges(&self) -> Result<Vec<Segment>, RangeError> {
        range::of_releases(&bytes::list(self))
    }

    /// The list that a sorted sequence of ranges of releases is: the outer bounds, and a specifier `!=` for a gap of one
    /// version or of a release `1.2`. Other gaps are left out. It is meant for bounds that are releases alone.
    ///
    /// ```
    /// use pep440_rattle::{Version, VersionSpecifiers};
    /// use std::ops::Bound::{Excluded, Included, Unbounded};
    ///
    /// let segments = [(Included(Version::new([3, 7])), Excluded(Version::new([3, 8]))), (Included(Version::new([3, 9])), Unbounded)];
    /// let list = VersionSpecifiers::from_release_only_bounds(segments.iter().map(|(low, high)| (low, high)));
    /// assert_eq!(list.to_string(), ">=3.7, !=3.8.*");
    /// ```
    pub fn from_release_only_bounds<'a>(
        mut bounds: impl Iterator<Item = (&'a Bound<Version>, &'a Bound<Version>)>,
    ) -> VersionSpecifiers {
        let Some((first, mut end)) = bounds.next() else {
            return VersionSpecifiers::empty();
        };
        let mut members = Vec::new();
        for (lower, upper) in bounds {
            let gap = from_gap(end, lower);
            #[cfg(feature = "tracing")]
            if gap.is_none() {
                crate::features::logged::unsupported_gap(end, lower);
            }
            members.extend(gap);
            end = upper;
        }
        members.extend(VersionSpecifier::from_release_only_bounds((first, end)));
        VersionSpecifiers::from_unsorted(members)
    }
}

/// The specifier that leaves out what lies between two segments; None where there is none.
fn from_gap(end: &Bound<Version>, start: &Bound<Version>) -> Option<VersionSpecifier> {
    match (end, start) {
        (Bound::Excluded(end), Bound::Excluded(start)) if end == start => Some(VersionSpecifier::not_equals_version(end.clone())),
        (Bound::Excluded(end), Bound::Included(start)) if is_next_minor(end, start) => {
            Some(VersionSpecifier::not_equals_star_version(end.clone()))
        }
        _ => None,
    }
}

impl FromStr for VersionSpecifiers {
    type Err = VersionSpecifiersParseError;

    /// Parses specifiers with commas between them; the empty string is the empty list.
    fn from_str(list: &str) -> Result<VersionSpecifiers, VersionSpecifiersParseError> {
        let members = calls::normalize_list(list, |list| read_list(list).collect());
        let members = members.map_err(|_| VersionSpecifiersParseError::new(list))?;
        let list = VersionSpecifiers { members, compiled: Lazy::new() };
        #[cfg(feature = "tracing")]
        crate::features::logged::exact_equality(list.iter().map(|member| *member.operator()));
        Ok(list)
    }
}

impl fmt::Display for VersionSpecifiers {
    /// Writes the specifiers with a comma and a space between them.
    fn fmt(&self, f: &mut fmt::Formatter<'_>) -> fmt::Result {
        for (place, member) in self.iter().enumerate() {
            write!(f, "{}{member}", if place == 0 { "" } else { ", " })?;
        }
        Ok(())
    }
}

impl fmt::Debug for VersionSpecifiers {
    fn fmt(&self, f: &mut fmt::Formatter<'_>) -> fmt::Result {
        f.debug_tuple("VersionSpecifiers").field(&&**self).finish()
    }
}

impl Deref for VersionSpecifiers {
    type Target = [VersionSpecifier];

    fn deref(&self) -> &[VersionSpecifier] {
        &self.members
    }
}

impl FromIterator<VersionSpecifier> for VersionSpecifiers {
    fn from_iter<T: IntoIterator<Item = VersionSpecifier>>(members: T) -> VersionSpecifiers {
        VersionSpecifiers::from_unsorted(members.into_iter().collect())
    }
}

impl IntoIterator for VersionSpecifiers {
    type Item = VersionSpecifier;
    type IntoIter = vec::IntoIter<VersionSpecifier>;

    fn into_iter(self) -> Self::IntoIter {
        self.members.into_iter()
    }
}

impl From<VersionSpecifier> for VersionSpecifiers {
    fn from(specifier: VersionSpecifier) -> VersionSpecifiers {
        VersionSpecifiers::from_unsorted(vec![specifier])
    }
}

impl Default for VersionSpecifiers {
    fn default() -> VersionSpecifiers {
        VersionSpecifiers::empty()
    }
}

impl PartialEq for VersionSpecifiers {
    fn eq(&self, other: &VersionSpecifiers) -> bool {
        **self == **other
    }
}

impl Eq for VersionSpecifiers {}

impl PartialOrd for VersionSpecifiers {
    fn partial_cmp(&self, other: &VersionSpecifiers) -> Option<Ordering> {
        Some(self.cmp(other))
    }
}

impl Ord for VersionSpecifiers {
    fn cmp(&self, other: &VersionSpecifiers) -> Ordering {
        (**self).cmp(&**other)
    }
}

impl Hash for VersionSpecifiers {
    fn hash<H: Hasher>(&self, state: &mut H) {
        (**self).hash(state);
    }
}
