//! Versions that may have `.*` behind them.
use crate::{Version, VersionPatternParseError, calls};
use core::str::FromStr;

/// What stands behind an operator: a version, as `1.2.3`, or one with a wildcard, as `1.2.*`.
///
/// ```
/// use pep440_rattle::VersionPattern;
///
/// let pattern: VersionPattern = "1.2.*".parse().unwrap();
/// assert!(pattern.is_wildcard());
/// ```
#[derive(Clone, Debug, PartialEq, Eq, Hash)]
pub struct VersionPattern {
    version: Version,
    wildcard: bool,
}

impl VersionPattern {
    /// The version alone.
    ///
    /// ```
    /// use pep440_rattle::{Version, VersionPattern};
    ///
    /// assert_eq!("1.2".parse(), Ok(VersionPattern::verbatim(Version::new([1, 2]))));
    /// ```
    pub fn verbatim(version: Version) -> VersionPattern {
        VersionPattern { version, wildcard: false }
    }

    /// The version with `.*`.
    ///
    /// ```
    /// use pep440_rattle::{Version, VersionPattern};
    ///
    /// assert_eq!("1.2.*".parse(), Ok(VersionPattern::wildcard(Version::new([1, 2]))));
    /// ```
    pub fn wildcard(version: Version) -> VersionPattern {
        VersionPattern { version, wildcard: true }
    }

    /// The version, without its wildcard.
    ///
    /// ```
    /// use pep440_rattle::{Version, VersionPattern};
    ///
    /// assert_eq!(*"1.2.*".parse::<VersionPattern>().unwrap().version(), Version::new([1, 2]));
    /// ```
    pub fn version(&self) -> &Version {
        &self.version
    }

    /// The version, without its wildcard.
    ///
    /// ```
    /// use pep440_rattle::{Version, VersionPattern};
    ///
    /// assert_eq!("1.2.*".parse::<VersionPattern>().unwrap().into_version(), Version::new([1, 2]));
    /// ```
    pub fn into_version(self) -> Version {
        self.version
    }

    /// Whether there is a wildcard.
    ///
    /// ```
    /// use pep440_rattle::VersionPattern;
    ///
    /// assert!(!"1.2".parse::<VersionPattern>().unwrap().is_wildcard());
    /// ```
    pub fn is_wildcard(&self) -> bool {
        self.wildcard
    }
}

impl FromStr for VersionPattern {
    type Err = VersionPatternParseError;

    /// Parses a version, or one of epoch and release with `.*` behind it, as `1.2.*`.
    fn from_str(pattern: &str) -> Result<VersionPattern, VersionPatternParseError> {
        if let Ok(version) = Version::parse(pattern) {
            return Ok(VersionPattern::verbatim(version));
        }
        let found =
            calls::pattern(pattern, |text, wildcard| Some(VersionPattern { version: Version::parse(text).ok()?, wildcard }));
        let found = found.map(|found| found.expect("the library wrote this version"));
        found.map_err(|_| VersionPatternParseError::new(pattern))
    }
}
