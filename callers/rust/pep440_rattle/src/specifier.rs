//! Specifiers: an operator and a version.
use crate::bytes;
use crate::calls::{self, WRITTEN};
use crate::range;
use crate::{Operator, RangeError, Segment, Version, VersionPattern, VersionSpecifierBuildError, VersionSpecifierParseError};
use alloc::vec::Vec;
use core::fmt;
use core::ops::Bound;
use core::str::FromStr;

/// A specifier, as `>1.2.3`, `<=4!5.6.7a8.post9.dev0` or `==4.1.*`.
///
/// ```
/// use pep440_rattle::{Version, VersionSpecifier};
///
/// let specifier: VersionSpecifier = "== 1.*".parse().unwrap();
/// assert!(specifier.contains(&Version::new([1, 19])));
/// assert_eq!(specifier.to_string(), "==1.*");
/// ```
#[derive(Clone, Debug, PartialEq, Eq, PartialOrd, Ord, Hash)]
pub struct VersionSpecifier {
    operator: Operator,
    version: Version,
}

impl VersionSpecifier {
    /// A specifier of these parts; no other call of the module makes one.
    pub(crate) fn unchecked(operator: Operator, version: Version) -> VersionSpecifier {
        VersionSpecifier { operator, version }
    }

    /// The specifier of an operator and a pattern, whose wildcard makes the operator a star form.
    ///
    /// ```
    /// use pep440_rattle::{Operator, VersionSpecifier};
    ///
    /// let made = VersionSpecifier::from_pattern(Operator::Equal, "1.2.*".parse().unwrap()).unwrap();
    /// assert_eq!(made.to_string(), "==1.2.*");
    /// ```
    ///
    /// # Errors
    ///
    /// Where the operator has no star form, and as [`VersionSpecifier::from_version`].
    pub fn from_pattern(
        operator: Operator,
        version_pattern: VersionPattern,
    ) -> Result<VersionSpecifier, VersionSpecifierBuildError> {
        let (wildcard, version) = (version_pattern.is_wildcard(), version_pattern.into_version());
        let written = if wildcard { operator.to_star() } else { Some(operator) };
        match written.filter(|operator| operator.takes(&version)) {
            Some(operator) => Ok(VersionSpecifier::unchecked(operator, version)),
            None => Err(VersionSpecifierBuildError::new(operator, version, wildcard)),
        }
    }

    /// The specifier of an operator and a version.
    ///
    /// ```
    /// use pep440_rattle::{Operator, Version, VersionSpecifier};
    ///
    /// assert!(VersionSpecifier::from_version(Operator::TildeEqual, Version::new([1])).is_err());
    /// ```
    ///
    /// # Errors
    ///
    /// Where the version has a local part and the operator is none of `==`, `!=` and `===`, or the operator is `~=` and the
    /// version has one release number.
    #[inline]
    pub fn from_version(operator: Operator, version: Version) -> Result<VersionSpecifier, VersionSpecifierBuildError> {
        if operator.takes(&version) {
            Ok(VersionSpecifier::unchecked(operator, version))
        } else {
            Err(VersionSpecifierBuildError::new(operator, version, false))
        }
    }

    /// `==` and the version; nothing is checked.
    ///
    /// ```
    /// use pep440_rattle::{Version, VersionSpecifier};
    ///
    /// assert_eq!(VersionSpecifier::equals_version(Version::new([1, 2])).to_string(), "==1.2");
    /// ```
    pub fn equals_version(version: Version) -> VersionSpecifier {
        VersionSpecifier::unchecked(Operator::Equal, version)
    }

    /// `==`, the version and `.*`; nothing is checked.
    ///
    /// ```
    /// use pep440_rattle::{Version, VersionSpecifier};
    ///
    /// assert_eq!(VersionSpecifier::equals_star_version(Version::new([1, 2])).to_string(), "==1.2.*");
    /// ```
    pub fn equals_star_version(version: Version) -> VersionSpecifier {
        VersionSpecifier::unchecked(Operator::EqualStar, version)
    }

    /// `!=`, the version and `.*`; nothing is checked.
    ///
    /// ```
    /// use pep440_rattle::{Version, VersionSpecifier};
    ///
    /// assert_eq!(VersionSpecifier::not_equals_star_version(Version::new([1, 2])).to_string(), "!=1.2.*");
    /// ```
    pub fn not_equals_star_version(version: Version) -> VersionSpecifier {
        VersionSpecifier::unchecked(Operator::NotEqualStar, version)
    }

    /// `!=` and the version; nothing is checked.
    ///
    /// ```
    /// use pep440_rattle::{Version, VersionSpecifier};
    ///
    /// assert_eq!(VersionSpecifier::not_equals_version(Version::new([1, 2])).to_string(), "!=1.2");
    /// ```
    pub fn not_equals_version(version: Version) -> VersionSpecifier {
        VersionSpecifier::unchecked(Operator::NotEqual, version)
    }

    /// `>=` and the version; nothing is checked.
    ///
    /// ```
    /// use pep440_rattle::{Version, VersionSpecifier};
    ///
    /// assert_eq!(VersionSpecifier::greater_than_equal_version(Version::new([1, 2])).to_string(), ">=1.2");
    /// ```
    pub fn greater_than_equal_version(version: Version) -> VersionSpecifier {
        VersionSpecifier::unchecked(Operator::GreaterThanEqual, version)
    }

    /// `>` and the version; nothing is checked.
    ///
    /// ```
    /// use pep440_rattle::{Version, VersionSpecifier};
    ///
    /// assert_eq!(VersionSpecifier::greater_than_version(Version::new([1, 2])).to_string(), ">1.2");
    /// ```
    pub fn greater_than_version(version: Version) -> VersionSpecifier {
        VersionSpecifier::unchecked(Operator::GreaterThan, version)
    }

    /// `<=` and the version; nothing is checked.
    ///
    /// ```
    /// use pep440_rattle::{Version, VersionSpecifier};
    ///
    /// assert_eq!(VersionSpecifier::less_than_equal_version(Version::new([1, 2])).to_string(), "<=1.2");
    /// ```
    pub fn less_than_equal_version(version: Version) -> VersionSpecifier {
        VersionSpecifier::unchecked(Operator::LessThanEqual, version)
    }

    /// `<` and the version; nothing is checked.
    ///
    /// ```
    /// use pep440_rattle::{Version, VersionSpecifier};
    ///
    /// assert_eq!(VersionSpecifier::less_than_version(Version::new([1, 2])).to_string(), "<1.2");
    /// ```
    pub fn less_than_version(version: Version) -> VersionSpecifier {
        VersionSpecifier::unchecked(Operator::LessThan, version)
    }

    /// The operator.
    ///
    /// ```
    /// use pep440_rattle::{Operator, VersionSpecifier};
    ///
    /// assert_eq!(*"== 1.*".parse::<VersionSpecifier>().unwrap().operator(), Operator::EqualStar);
    /// ```
    pub fn operator(&self) -> &Operator {
        &self.operator
    }

    /// The version, without the `.*` of a star form.
    ///
    /// ```
    /// use pep440_rattle::{Version, VersionSpecifier};
    ///
    /// assert_eq!(*"== 1.*".parse::<VersionSpecifier>().unwrap().version(), Version::new([1]));
    /// ```
    pub fn version(&self) -> &Version {
        &self.version
    }

    /// The operator and the version.
    ///
    /// ```
    /// use pep440_rattle::{Operator, Version, VersionSpecifier};
    ///
    /// let parts = ">1.2".parse::<VersionSpecifier>().unwrap().into_parts();
    /// assert_eq!(parts, (Operator::GreaterThan, Version::new([1, 2])));
    /// ```
    pub fn into_parts(self) -> (Operator, Version) {
        (self.operator, self.version)
    }

    /// Whether the version has a pre-release or a developmental part.
    ///
    /// ```
    /// use pep440_rattle::VersionSpecifier;
    ///
    /// assert!(">=1.0rc1".parse::<VersionSpecifier>().unwrap().any_prerelease());
    /// ```
    pub fn any_prerelease(&self) -> bool {
        self.version.any_prerelease()
    }

    /// Whether the specifier contains the version (PEP 440, "Version specifiers"). Pre-releases are versions like others.
    ///
    /// ```
    /// use pep440_rattle::{Version, VersionSpecifier};
    ///
    /// assert!("~=1.4".parse::<VersionSpecifier>().unwrap().contains(&Version::new([1, 9])));
    /// ```
    pub fn contains(&self, version: &Version) -> bool {
        #[cfg(feature = "tracing")]
        crate::features::logged::exact_equality([self.operator]);
        self.with_list(|list| version.is_in(list))
    }

    /// Whether there are versions that the specifier excludes for being too low.
    ///
    /// ```
    /// use pep440_rattle::VersionSpecifier;
    ///
    /// assert!(!"<2".parse::<VersionSpecifier>().unwrap().has_lower_bound());
    /// ```
    pub fn has_lower_bound(&self) -> bool {
        use Operator::{Equal, EqualStar, ExactEqual, GreaterThan, GreaterThanEqual, TildeEqual};
        matches!(self.operator, Equal | EqualStar | ExactEqual | TildeEqual | GreaterThan | GreaterThanEqual)
    }

    /// The range of the specifier; see [`VersionSpecifiers::ranges`](crate::VersionSpecifiers::ranges).
    ///
    /// ```
    /// use pep440_rattle::{Version, VersionSpecifier};
    /// use std::ops::Bound;
    ///
    /// let below = (Bound::Unbounded, Bound::Included(Version::new([2])));
    /// assert_eq!("<=2".parse::<VersionSpecifier>().unwrap().ranges(), Ok(vec![below]));
    /// ```
    ///
    /// # Errors
    ///
    /// As [`VersionSpecifiers::ranges`](crate::VersionSpecifiers::ranges).
    pub fn ranges(&self) -> Result<Vec<Segment>, RangeError> {
        self.with_list(range::of_list)
    }

    /// The range of the specifier by releases alone; see
    /// [`VersionSpecifiers::release_ranges`](crate::VersionSpecifiers::release_ranges).
    ///
    /// ```
    /// use pep440_rattle::{Version, VersionSpecifier};
    /// use std::ops::Bound;
    ///
    /// let below = (Bound::Unbounded, Bound::Excluded(Version::new([2])));
    /// assert_eq!("<2".parse::<VersionSpecifier>().unwrap().release_ranges(), Ok(vec![below]));
    /// ```
    ///
    /// # Errors
    ///
    /// As [`VersionSpecifiers::ranges`](crate::VersionSpecifiers::ranges).
    pub fn release_ranges(&self) -> Result<Vec<Segment>, RangeError> {
        self.with_list(range::of_releases)
    }

    /// Calls `read` with the compiled bytes of a list of this specifier alone.
    pub(crate) fn with_list<T>(&self, read: impl FnOnce(&[u8]) -> T) -> T {
        self.version.with_start(bytes::list_start(self.operator), read)
    }

    /// The specifiers that a range of releases is: one where it is one version or all of a release `1.2`, else one for each
    /// bound. It is meant for bounds that are releases alone.
    ///
    /// ```
    /// use pep440_rattle::{Version, VersionSpecifier};
    /// use std::ops::Bound;
    ///
    /// let bounds = (&Bound::Included(Version::new([3, 8])), &Bound::Excluded(Version::new([3, 9])));
    /// let made: Vec<VersionSpecifier> = VersionSpecifier::from_release_only_bounds(bounds).collect();
    /// assert_eq!(made[0].to_string(), "==3.8.*");
    /// ```
    pub fn from_release_only_bounds(bounds: (&Bound<Version>, &Bound<Version>)) -> impl Iterator<Item = VersionSpecifier> {
        let found = match bounds {
            (Bound::Included(low), Bound::Included(high)) if low == high => {
                [Some(VersionSpecifier::equals_version(low.clone())), None]
            }
            (Bound::Included(low), Bound::Excluded(high)) if is_next_minor(low, high) => {
                [Some(VersionSpecifier::equals_star_version(low.clone())), None]
            }
            (low, high) => [VersionSpecifier::from_lower_bound(low), VersionSpecifier::from_upper_bound(high)],
        };
        found.into_iter().flatten()
    }

    /// The specifier of a lower bound; None where there is no bound.
    ///
    /// ```
    /// use pep440_rattle::{Version, VersionSpecifier};
    /// use std::ops::Bound;
    ///
    /// let made = VersionSpecifier::from_lower_bound(&Bound::Excluded(Version::new([3])));
    /// assert_eq!(made.unwrap().to_string(), ">3");
    /// ```
    ///
    /// # Panics
    ///
    /// Where the version has a local part.
    pub fn from_lower_bound(bound: &Bound<Version>) -> Option<VersionSpecifier> {
        from_bound(bound, Operator::GreaterThanEqual, Operator::GreaterThan)
    }

    /// The specifier of an upper bound; None where there is no bound.
    ///
    /// ```
    /// use pep440_rattle::{Version, VersionSpecifier};
    /// use std::ops::Bound;
    ///
    /// assert_eq!(VersionSpecifier::from_upper_bound(&Bound::Unbounded), None);
    /// ```
    ///
    /// # Panics
    ///
    /// Where the version has a local part.
    pub fn from_upper_bound(bound: &Bound<Version>) -> Option<VersionSpecifier> {
        from_bound(bound, Operator::LessThanEqual, Operator::LessThan)
    }
}

fn from_bound(bound: &Bound<Version>, included: Operator, excluded: Operator) -> Option<VersionSpecifier> {
    let (operator, version) = match bound {
        Bound::Included(version) => (included, version),
        Bound::Excluded(version) => (excluded, version),
        Bound::Unbounded => return None,
    };
    Some(VersionSpecifier::from_version(operator, version.clone()).expect("a bound has no local part"))
}

/// Whether the first release is two numbers, and the second the same with the last one greater by one.
pub(crate) fn is_next_minor(low: &Version, high: &Version) -> bool {
    match (low.release(), high.release()) {
        ([major, minor], [other, next]) => major == other && minor.checked_add(1) == Some(*next),
        _ => false,
    }
}

/// The specifiers of the normalized form of a list.
pub(crate) fn read_list(list: &str) -> impl Iterator<Item = VersionSpecifier> {
    // (a blank follows each comma; to search for both takes longer)
    list.split(',').map(|member| member.strip_prefix(' ').unwrap_or(member)).filter(|member| !member.is_empty()).map(read)
}

/// The specifier of a normalized form: an operator, a version, and `.*` behind it or nothing.
fn read(specifier: &str) -> VersionSpecifier {
    let start = specifier.bytes().position(|byte| byte.is_ascii_digit()).expect(WRITTEN);
    let (symbol, version) = specifier.split_at(start);
    let operator = Operator::from_symbol(symbol).expect(WRITTEN);
    let (operator, version) = match version.strip_suffix(".*") {
        Some(version) => (operator.to_star().expect(WRITTEN), version),
        None => (operator, version),
    };
    VersionSpecifier { operator, version: Version::parse(version).expect(WRITTEN) }
}

impl FromStr for VersionSpecifier {
    type Err = VersionSpecifierParseError;

    /// Parses a specifier, as `>= 1.19`, `== 1.1.*` or `<=1!2012.2`.
    fn from_str(specifier: &str) -> Result<VersionSpecifier, VersionSpecifierParseError> {
        // A specifier is a list of one; a list of several has a comma.
        let only = |list: &str| (!list.is_empty() && !list.contains(',')).then(|| read(list));
        let Ok(Some(found)) = calls::normalize_list(specifier, only) else {
            return Err(VersionSpecifierParseError::new(specifier));
        };
        #[cfg(feature = "tracing")]
        crate::features::logged::exact_equality([found.operator]);
        Ok(found)
    }
}

impl fmt::Display for VersionSpecifier {
    /// Writes the operator and the normalized version, as `==1.2.*`.
    fn fmt(&self, f: &mut fmt::Formatter<'_>) -> fmt::Result {
        write!(f, "{}{}{}", self.operator, self.version, if self.operator.is_star() { ".*" } else { "" })
    }
}
