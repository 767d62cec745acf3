//! Errors. What the library finds wrong with a string it says in words, when it is asked to.
use crate::calls::{self, Kind};
use crate::version::write_local;
use crate::{Operator, Version};
use alloc::borrow::ToOwned;
use alloc::boxed::Box;
use alloc::string::String;
use core::error::Error;
use core::fmt;

/// Errors are equal if their texts are.
macro_rules! told_by_text {
    ($($name:ident)*) => {$(
        impl Error for $name {}

        impl fmt::Display for $name {
            fn fmt(&self, f: &mut fmt::Formatter<'_>) -> fmt::Result {
                f.write_str(&self.text())
            }
        }

        impl fmt::Debug for $name {
            fn fmt(&self, f: &mut fmt::Formatter<'_>) -> fmt::Result {
                f.debug_struct(stringify!($name)).field("text", &self.text()).finish()
            }
        }

        impl PartialEq for $name {
            fn eq(&self, other: &$name) -> bool {
                self.text() == other.text()
            }
        }

        impl Eq for $name {}
    )*};
}

told_by_text! {
    VersionParseError
    VersionPatternParseError
    VersionSpecifierParseError
    VersionSpecifierBuildError
    VersionSpecifiersParseError
}

/// Why a string is no version.
///
/// ```
/// use pep440_rattle::Version;
///
/// let error = "1.0x".parse::<Version>().unwrap_err();
/// assert_eq!(error.to_string(), "after parsing `1.0`, found `x`, which is not part of a valid version");
/// ```
#[derive(Clone)]
pub struct VersionParseError {
    string: Box<str>,
}

impl VersionParseError {
    #[cold]
    pub(crate) fn new(string: &str) -> VersionParseError {
        VersionParseError { string: string.into() }
    }

    fn text(&self) -> Box<str> {
        calls::error(Kind::Version, &self.string)
    }
}

/// Why a string is neither a version nor a version with `.*` behind it.
///
/// ```
/// use pep440_rattle::VersionPattern;
///
/// let error = "1.*.2".parse::<VersionPattern>().unwrap_err();
/// assert_eq!(error.to_string(), "wildcards in versions must be at the end");
/// ```
#[derive(Clone)]
pub struct VersionPatternParseError {
    string: Box<str>,
    kind: Kind,
}

impl VersionPatternParseError {
    #[cold]
    pub(crate) fn new(string: &str) -> VersionPatternParseError {
        VersionPatternParseError { string: string.into(), kind: Kind::Pattern }
    }

    fn text(&self) -> Box<str> {
        calls::error(self.kind, &self.string)
    }
}

impl From<VersionParseError> for VersionPatternParseError {
    fn from(error: VersionParseError) -> VersionPatternParseError {
        VersionPatternParseError { string: error.string, kind: Kind::Version }
    }
}

/// Why a string is no specifier.
///
/// ```
/// use pep440_rattle::VersionSpecifier;
///
/// let error = "1.0".parse::<VersionSpecifier>().unwrap_err();
/// assert_eq!(error.to_string(), "Unexpected end of version specifier, expected operator");
/// ```
#[derive(Clone)]
pub struct VersionSpecifierParseError {
    string: Box<str>,
}

impl VersionSpecifierParseError {
    #[cold]
    pub(crate) fn new(string: &str) -> VersionSpecifierParseError {
        VersionSpecifierParseError { string: string.into() }
    }

    fn text(&self) -> Box<str> {
        calls::error(Kind::Specifier, &self.string)
    }
}

/// Why an operator and a version make no specifier.
///
/// ```
/// use pep440_rattle::{Operator, Version, VersionSpecifier};
///
/// let error = VersionSpecifier::from_version(Operator::TildeEqual, Version::new([1])).unwrap_err();
/// assert_eq!(error.to_string(), "The ~= operator requires at least two segments in the release version");
/// ```
#[derive(Clone)]
pub struct VersionSpecifierBuildError {
    operator: Operator,
    version: Version,
    wildcard: bool,
}

impl VersionSpecifierBuildError {
    #[cold]
    pub(crate) fn new(operator: Operator, version: Version, wildcard: bool) -> VersionSpecifierBuildError {
        VersionSpecifierBuildError { operator, version, wildcard }
    }

    /// The library says it of a version that a string parses to; the local part is quoted as it is.
    fn text(&self) -> Box<str> {
        let parsed = if self.version.is_parsed() { &self.version } else { &self.version.to_parsed() };
        let text = parsed.with_compiled(|version| calls::build_error(self.operator as u8, version, self.wildcard));
        text.replace(&quoted_local(parsed), &quoted_local(&self.version)).into()
    }
}

/// The local part as an error quotes it, `+a.5` and the quotation mark behind it.
fn quoted_local(version: &Version) -> String {
    let mut text = String::new();
    write_local(&mut text, version.local()).expect("a string takes what is written");
    text + "`"
}

/// Why a string is no list of specifiers.
///
/// ```
/// use pep440_rattle::VersionSpecifiers;
///
/// let error = ">=1.0, ~=2".parse::<VersionSpecifiers>().unwrap_err();
/// assert!(error.to_string().contains("The ~= operator requires at least two segments in the release version"));
/// ```
#[derive(Clone)]
pub struct VersionSpecifiersParseError {
    line: String,
}

impl VersionSpecifiersParseError {
    #[cold]
    pub(crate) fn new(line: &str) -> VersionSpecifiersParseError {
        VersionSpecifiersParseError { line: line.to_owned() }
    }

    fn text(&self) -> Box<str> {
        calls::error(Kind::List, &self.line)
    }

    /// The string that is no list.
    ///
    /// ```
    /// use pep440_rattle::VersionSpecifiers;
    ///
    /// assert_eq!(">>1".parse::<VersionSpecifiers>().unwrap_err().line(), ">>1");
    /// ```
    #[must_use]
    pub fn line(&self) -> &String {
        &self.line
    }
}

/// A string that is no operator.
///
/// ```
/// use pep440_rattle::Operator;
///
/// let error = "=".parse::<Operator>().unwrap_err();
/// assert_eq!(error.to_string(), "no such comparison operator \"=\", must be one of ~= == != <= >= < > ===");
/// ```
#[derive(Clone, Debug, PartialEq, Eq)]
pub struct OperatorParseError {
    got: String,
}

impl OperatorParseError {
    pub(crate) fn new(got: &str) -> Self {
        Self { got: got.to_owned() }
    }
}

impl Error for OperatorParseError {}

impl fmt::Display for OperatorParseError {
    fn fmt(&self, f: &mut fmt::Formatter<'_>) -> fmt::Result {
        write!(f, "no such comparison operator {:?}, must be one of ~= == != <= >= < > ===", self.got)
    }
}

/// Why a list has no range.
///
/// ```
/// use pep440_rattle::{RangeError, VersionSpecifier};
///
/// let highest: VersionSpecifier = "==18446744073709551615.*".parse().unwrap();
/// assert_eq!(highest.ranges(), Err(RangeError::NumberAtMax));
/// ```
#[derive(Clone, Copy, Debug, PartialEq, Eq)]
#[non_exhaustive]
pub enum RangeError {
    /// A bound would need a number above `u64::MAX`, as the end of `==18446744073709551615.*`.
    NumberAtMax,
    /// No string parses to the version of a specifier: it has a sentinel, or a local segment that is not in normal form.
    NotParsed,
}

impl Error for RangeError {}

impl fmt::Display for RangeError {
    fn fmt(&self, f: &mut fmt::Formatter<'_>) -> fmt::Result {
        match self {
            RangeError::NumberAtMax => f.write_str("a bound would need a number above 18446744073709551615"),
            RangeError::NotParsed => f.write_str("no string parses to the version of a specifier"),
        }
    }
}
