//! The operators of specifiers.
use crate::{OperatorParseError, Version};
use core::fmt;
use core::str::FromStr;

/// An operator of a specifier (PEP 440, "Version specifiers"). A star form goes with a version and `.*`.
///
/// ```
/// use pep440_rattle::Operator;
///
/// assert_eq!("~=".parse(), Ok(Operator::TildeEqual));
/// ```
#[derive(Clone, Copy, Debug, PartialEq, Eq, PartialOrd, Ord, Hash)]
pub enum Operator {
    /// `==`, as in `==1.2.3`
    Equal,
    /// `==` with a star, as in `==1.2.*`
    EqualStar,
    /// `===`, which compares normalized forms
    ExactEqual,
    /// `!=`, as in `!=1.2.3`
    NotEqual,
    /// `!=` with a star, as in `!=1.2.*`
    NotEqualStar,
    /// `~=`, whose version has two release numbers or more
    TildeEqual,
    /// `<`
    LessThan,
    /// `<=`
    LessThanEqual,
    /// `>`
    GreaterThan,
    /// `>=`
    GreaterThanEqual,
}

use Operator::{
    Equal, EqualStar, ExactEqual, GreaterThan, GreaterThanEqual, LessThan, LessThanEqual, NotEqual, NotEqualStar, TildeEqual,
};

impl Operator {
    /// The operator of the opposite meaning; None of `~=`, which has none. `===` gives `!=`, and that gives `==`.
    ///
    /// ```
    /// use pep440_rattle::Operator;
    ///
    /// assert_eq!(Operator::LessThan.negate(), Some(Operator::GreaterThanEqual));
    /// ```
    #[must_use]
    pub fn negate(self) -> Option<Operator> {
        Some(match self {
            Equal | ExactEqual => NotEqual,
            NotEqual => Equal,
            EqualStar => NotEqualStar,
            NotEqualStar => EqualStar,
            LessThan => GreaterThanEqual,
            LessThanEqual => GreaterThan,
            GreaterThan => LessThanEqual,
            GreaterThanEqual => LessThan,
            TildeEqual => return None,
        })
    }

    /// Whether the operator is a star form.
    ///
    /// ```
    /// use pep440_rattle::Operator;
    ///
    /// assert!(Operator::EqualStar.is_star());
    /// ```
    #[must_use]
    pub fn is_star(self) -> bool {
        matches!(self, EqualStar | NotEqualStar)
    }

    /// The star form; only `==` and `!=` have one.
    #[inline]
    pub(crate) fn to_star(self) -> Option<Operator> {
        match self {
            Equal => Some(EqualStar),
            NotEqual => Some(NotEqualStar),
            _ => None,
        }
    }

    /// The operator as it is written.
    #[inline]
    pub(crate) fn from_symbol(symbol: &str) -> Option<Operator> {
        Some(match symbol {
            "==" => Equal,
            "===" => ExactEqual,
            "!=" => NotEqual,
            "~=" => TildeEqual,
            "<" => LessThan,
            "<=" => LessThanEqual,
            ">" => GreaterThan,
            ">=" => GreaterThanEqual,
            _ => return None,
        })
    }

    /// Whether the operator goes with the version: a local part only with three of them, and `~=` with more than one release number.
    #[inline]
    pub(crate) fn takes(self, version: &Version) -> bool {
        match self {
            Equal | NotEqual | ExactEqual => true,
            TildeEqual => !version.is_local() && version.has_two_numbers(),
            _ => !version.is_local(),
        }
    }

    fn symbol(self) -> &'static str {
        match self {
            Equal | EqualStar => "==",
            ExactEqual => "===",
            NotEqual | NotEqualStar => "!=",
            TildeEqual => "~=",
            LessThan => "<",
            LessThanEqual => "<=",
            GreaterThan => ">",
            GreaterThanEqual => ">=",
        }
    }
}

impl FromStr for Operator {
    type Err = OperatorParseError;

    /// The operator as it is written; never a star form, since the star follows the version.
    fn from_str(symbol: &str) -> Result<Operator, OperatorParseError> {
        let found = Operator::from_symbol(symbol);
        #[cfg(feature = "tracing")]
        crate::features::logged::exact_equality(found);
        found.ok_or_else(|| OperatorParseError::new(symbol))
    }
}

impl fmt::Display for Operator {
    /// The operator as it is written, without a star.
    fn fmt(&self, f: &mut fmt::Formatter<'_>) -> fmt::Result {
        f.write_str(self.symbol())
    }
}
