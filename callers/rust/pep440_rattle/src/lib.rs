//! Versions and specifiers of Python packages ([PEP 440](https://peps.python.org/pep-0440)), by a proved library.
//!
//! The names and the behaviour are those of the crate `pep440_rs` 0.7.3, but for the departures that the README lists.
//! Parsing, normalized forms, matching and ranges are calls of the library `pep440`, whose functions are proved to do what
//! PEP 440 says. This crate is tested, not proved. It keeps a version as its sort key, and changes, reads and compares that; the keys
//! of the library are proved to have the order of versions. The README names what is tested alone.
//!
//! ```
//! use pep440_rattle::{Version, VersionSpecifiers};
//!
//! let version: Version = "v1.19-Alpha.2".parse().unwrap();
//! assert_eq!(version.to_string(), "1.19a2");
//! let list: VersionSpecifiers = ">=1.16, <2.0".parse().unwrap();
//! assert!(list.contains(&version));
//! assert_eq!(
//!     "1.0prev".parse::<Version>().unwrap_err().to_string(),
//!     "after parsing `1.0pre`, found `v`, which is not part of a valid version"
//! );
//! ```
//!
//! # Features
//!
//! - `serde`: versions, specifiers and lists are serialized as strings.
//! - `version-ranges`: specifiers and lists convert into the `Ranges<Version>` of that crate.
//! - `tracing`: warnings, as of `===`, which is discouraged.
//!
//! Out of memory ends in [`handle_alloc_error`](alloc::alloc::handle_alloc_error), as in the standard library.
#![no_std]
#![deny(missing_docs, unsafe_code)]

extern crate alloc;
#[cfg(test)]
extern crate std;

mod bytes;
mod calls;
mod error;
#[cfg(any(feature = "serde", feature = "tracing", feature = "version-ranges"))]
mod features;
mod key;
mod lazy;
mod operator;
mod parts;
mod pattern;
mod range;
mod segment;
mod specifier;
mod specifiers;
#[cfg(test)]
mod tests;
mod version;

pub use error::{
    OperatorParseError, RangeError, VersionParseError, VersionPatternParseError, VersionSpecifierBuildError,
    VersionSpecifierParseError, VersionSpecifiersParseError,
};
#[cfg(feature = "version-ranges")]
pub use features::ranges::{release_specifier_to_range, release_specifiers_to_ranges};
pub use operator::Operator;
pub use pattern::VersionPattern;
pub use range::Segment;
pub use segment::{LocalSegment, Prerelease, PrereleaseKind};
pub use specifier::VersionSpecifier;
pub use specifiers::VersionSpecifiers;
pub use version::{MIN_VERSION, MinVersion, Version};
