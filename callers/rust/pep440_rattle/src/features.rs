//! What the features add.

/// Versions, specifiers and lists of them as strings.
#[cfg(feature = "serde")]
mod serde {
    use crate::{Version, VersionSpecifier, VersionSpecifiers};
    use core::convert::identity;
    use core::fmt::{self, Display};
    use core::marker::PhantomData;
    use core::str::FromStr;
    use serde::de::{Deserialize, Deserializer, Error, Unexpected, Visitor};
    use serde::ser::{Serialize, Serializer};

    /// Parses a string, borrowed or not. As in the ported crate, what is wrong with it is no error of the deserializer, which would add a place.
    struct Parser<T>(PhantomData<T>);

    impl<T: FromStr> Visitor<'_> for Parser<T> {
        type Value = Result<T, T::Err>;

        fn expecting(&self, f: &mut fmt::Formatter<'_>) -> fmt::Result {
            f.write_str("a string")
        }

        fn visit_str<E: Error>(self, text: &str) -> Result<Self::Value, E> {
            Ok(text.parse())
        }

        fn visit_bytes<E: Error>(self, text: &[u8]) -> Result<Self::Value, E> {
            match core::str::from_utf8(text) {
                Ok(text) => self.visit_str(text),
                Err(_) => Err(E::invalid_value(Unexpected::Bytes(text), &self)),
            }
        }
    }

    /// A list without blanks behind its commas.
    struct Compact<'a>(&'a VersionSpecifiers);

    impl Display for Compact<'_> {
        fn fmt(&self, f: &mut fmt::Formatter<'_>) -> fmt::Result {
            for (place, member) in self.0.iter().enumerate() {
                f.write_str(if place == 0 { "" } else { "," })?;
                member.fmt(f)?;
            }
            Ok(())
        }
    }

    macro_rules! strings {
        ($($name:ident as $text:expr;)*) => {$(
            impl Serialize for $name {
                fn serialize<S: Serializer>(&self, serializer: S) -> Result<S::Ok, S::Error> {
                    serializer.collect_str(&$text(self))
                }
            }

            impl<'de> Deserialize<'de> for $name {
                fn deserialize<D: Deserializer<'de>>(deserializer: D) -> Result<Self, D::Error> {
                    deserializer.deserialize_str(Parser::<Self>(PhantomData))?.map_err(D::Error::custom)
                }
            }
        )*};
    }

    strings! {
        Version as identity;
        VersionSpecifier as identity;
        VersionSpecifiers as Compact;
    }
}

/// Ranges of the crate `version-ranges`.
#[cfg(feature = "version-ranges")]
pub(crate) mod ranges {
    use crate::{RangeError, Segment, Version, VersionSpecifier, VersionSpecifiers};
    use alloc::vec::Vec;
    use version_ranges::Ranges;

    /// The union of segments that ascend.
    fn join(segments: &[Segment]) -> Ranges<Version> {
        match segments {
            [] => Ranges::empty(),
            [one] => Ranges::from_range_bounds(one.clone()),
            several => {
                let (left, right) = several.split_at(several.len() / 2);
                join(left).union(&join(right))
            }
        }
    }

    fn to_ranges(found: Result<Vec<Segment>, RangeError>) -> Ranges<Version> {
        join(&found.unwrap_or_else(|error| panic!("{error}")))
    }

    impl From<VersionSpecifiers> for Ranges<Version> {
        /// The range of the list; see [`VersionSpecifiers::ranges`].
        ///
        /// # Panics
        ///
        /// Where that is an error.
        fn from(specifiers: VersionSpecifiers) -> Ranges<Version> {
            to_ranges(specifiers.ranges())
        }
    }

    impl From<VersionSpecifier> for Ranges<Version> {
        /// The range of the specifier; see [`VersionSpecifiers::ranges`].
        ///
        /// # Panics
        ///
        /// Where that is an error.
        fn from(specifier: VersionSpecifier) -> Ranges<Version> {
            to_ranges(specifier.ranges())
        }
    }

    /// The range of a list by releases alone; see [`VersionSpecifiers::release_ranges`].
    ///
    /// ```
    /// use pep440_rattle::{Version, VersionSpecifiers, release_specifiers_to_ranges};
    ///
    /// let list: VersionSpecifiers = ">3.13rc1".parse().unwrap();
    /// assert!(!release_specifiers_to_ranges(list).contains(&Version::new([3, 13])));
    /// ```
    ///
    /// # Panics
    ///
    /// Where that is an error.
    #[must_use]
    #[expect(clippy::needless_pass_by_value, reason = "as the ported crate has it")]
    pub fn release_specifiers_to_ranges(specifiers: VersionSpecifiers) -> Ranges<Version> {
        to_ranges(specifiers.release_ranges())
    }

    /// The range of a specifier by releases alone; see [`VersionSpecifiers::release_ranges`].
    ///
    /// ```
    /// use pep440_rattle::{Version, VersionSpecifier, release_specifier_to_range};
    ///
    /// let specifier: VersionSpecifier = ">=3.13".parse().unwrap();
    /// assert!(release_specifier_to_range(specifier).contains(&Version::new([3, 13])));
    /// ```
    ///
    /// # Panics
    ///
    /// Where that is an error.
    #[must_use]
    #[expect(clippy::needless_pass_by_value, reason = "as the ported crate has it")]
    pub fn release_specifier_to_range(specifier: VersionSpecifier) -> Ranges<Version> {
        to_ranges(specifier.release_ranges())
    }
}

/// What is logged with the feature `tracing`, in the words of the ported crate.
#[cfg(feature = "tracing")]
pub(crate) mod logged {
    use crate::{Operator, Version};
    use core::ops::Bound;

    /// Warns of each `===`.
    pub(crate) fn exact_equality(operators: impl IntoIterator<Item = Operator>) {
        for _ in operators.into_iter().filter(|operator| *operator == Operator::ExactEqual) {
            tracing::warn!("Using arbitrary equality (`===`) is discouraged");
        }
    }

    /// Warns of a gap that no specifier leaves out.
    pub(crate) fn unsupported_gap(end: &Bound<Version>, start: &Bound<Version>) {
        tracing::warn!("Ignoring unsupported gap in `requires-python` version: {end:?} -> {start:?}");
    }
}
