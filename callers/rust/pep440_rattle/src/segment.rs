//! Pre-releases, and the segments of local versions.
use alloc::string::String;
use core::cmp::Ordering;
use core::fmt;

/// A pre-release: its kind and its number, as `rc2`.
///
/// ```
/// use pep440_rattle::{Prerelease, PrereleaseKind};
///
/// assert_eq!(Prerelease { kind: PrereleaseKind::Rc, number: 2 }.to_string(), "rc2");
/// ```
#[derive(Clone, Copy, Debug, PartialEq, Eq, PartialOrd, Ord, Hash)]
pub struct Prerelease {
    /// Alpha, beta or release candidate.
    pub kind: PrereleaseKind,
    /// The number behind the kind.
    pub number: u64,
}

/// The kind of a pre-release (PEP 440, "Pre-releases").
///
/// ```
/// use pep440_rattle::PrereleaseKind::{Alpha, Beta, Rc};
///
/// assert!(Alpha < Beta && Beta < Rc);
/// ```
#[derive(Clone, Copy, Debug, PartialEq, Eq, PartialOrd, Ord, Hash)]
pub enum PrereleaseKind {
    /// `a`
    Alpha,
    /// `b`
    Beta,
    /// `rc`
    Rc,
}

impl PrereleaseKind {
    /// The kind of a stage, by its rank in sort keys.
    pub(crate) fn from_rank(rank: u8) -> Option<PrereleaseKind> {
        Some(match rank {
            2 => PrereleaseKind::Alpha,
            3 => PrereleaseKind::Beta,
            4 => PrereleaseKind::Rc,
            _ => return None,
        })
    }
}

impl fmt::Display for PrereleaseKind {
    fn fmt(&self, f: &mut fmt::Formatter<'_>) -> fmt::Result {
        f.write_str(match self {
            PrereleaseKind::Alpha => "a",
            PrereleaseKind::Beta => "b",
            PrereleaseKind::Rc => "rc",
        })
    }
}

impl fmt::Display for Prerelease {
    fn fmt(&self, f: &mut fmt::Formatter<'_>) -> fmt::Result {
        write!(f, "{}{}", self.kind, self.number)
    }
}

/// A segment of a local version (PEP 440, "Local version identifiers"): each number is above each string.
///
/// ```
/// use pep440_rattle::LocalSegment;
///
/// assert!(LocalSegment::String("z".to_owned()) < LocalSegment::Number(0));
/// ```
#[derive(Clone, Debug, PartialEq, Eq, Hash)]
pub enum LocalSegment {
    /// A segment with a letter, or of digits beyond `u64::MAX`.
    String(String),
    /// A segment of digits.
    Number(u64),
}

impl LocalSegment {
    /// Whether the segment is one of a version that a string parses to.
    pub(crate) fn is_normal(&self) -> bool {
        match self {
            LocalSegment::String(text) => {
                let is_lower = text.bytes().all(|byte| byte.is_ascii_digit() || byte.is_ascii_lowercase());
                !text.is_empty() && is_lower && text.parse::<u64>().is_err()
            }
            LocalSegment::Number(_) => true,
        }
    }
}

impl fmt::Display for LocalSegment {
    fn fmt(&self, f: &mut fmt::Formatter<'_>) -> fmt::Result {
        match self {
            LocalSegment::String(string) => write!(f, "{string}"),
            LocalSegment::Number(number) => write!(f, "{number}"),
        }
    }
}

impl Ord for LocalSegment {
    fn cmp(&self, other: &Self) -> Ordering {
        use LocalSegment::{Number, String};
        match (self, other) {
            (String(left), String(right)) => left.cmp(right),
            (Number(left), Number(right)) => left.cmp(right),
            (String(_), Number(_)) => Ordering::Less,
            (Number(_), String(_)) => Ordering::Greater,
        }
    }
}

impl PartialOrd for LocalSegment {
    fn partial_cmp(&self, other: &Self) -> Option<Ordering> {
        Some(self.cmp(other))
    }
}
