//! What the programs share: the two crates, the library, strings by chance, and the same view of the values of either crate.
pub extern crate pep440_rs as peer;
pub extern crate version_ranges;

pub mod chance;
pub mod library;
pub mod views;

/// Where the two crates differ by `docs/DIFFERENCES.md`: rules that tell for given values what is wanted, or that nothing is.
pub mod departures {
    use crate::peer::{release_specifier_to_range, LocalSegment, Operator, Version, VersionSpecifier};
    use crate::version_ranges::Ranges;
    use std::cmp::Ordering;

    /// Whether the ported crate confuses the version with another one in the order: it puts 18446744073709551615 for an absent
    /// developmental release and for the sentinel `max`.
    pub fn is_confused(version: &Version) -> bool {
        version.dev() == Some(u64::MAX) || version.post() == Some(u64::MAX)
    }

    /// Whether a string parses to the version. Of others no list contains what is specified, and no specifier has a range.
    pub fn is_parsed(version: &Version) -> bool {
        let is_normal = |segment: &LocalSegment| match segment {
            LocalSegment::String(text) => {
                !text.is_empty()
                    && text.bytes().all(|byte| matches!(byte, b'a'..=b'z' | b'0'..=b'9'))
                    && text.parse::<u64>().is_err()
            }
            LocalSegment::Number(_) => true,
        };
        version.min().is_none() && version.max().is_none() && version.local().iter().all(is_normal)
    }

    /// Whether the order of the two is one that the ported crate gets wrong.
    pub fn is_misordered(left: &Version, right: &Version) -> bool {
        is_confused(left) || is_confused(right) || (left.max().is_some() && right.max().is_some())
    }

    fn number(release: &[u64], place: usize) -> u64 {
        release.get(place).copied().unwrap_or(0)
    }

    fn is_same_release(left: &Version, right: &Version) -> bool {
        let longer = left.release().len().max(right.release().len());
        left.epoch() == right.epoch() && (0..longer).all(|place| number(left.release(), place) == number(right.release(), place))
    }

    fn begins_with(version: &Version, prefix: &[u64]) -> bool {
        prefix.iter().enumerate().all(|(place, wanted)| number(version.release(), place) == *wanted)
    }

    /// Whether the specifier contains the version: as the ported crate says, but for `<V` and the star forms, which are mended.
    pub fn contains(specifier: &VersionSpecifier, version: &Version) -> bool {
        let named = specifier.version();
        let has_prefix = || named.epoch() == version.epoch() && begins_with(version, named.release());
        match specifier.operator() {
            Operator::LessThan => {
                let candidate = if named.is_local() { version.clone() } else { version.clone().without_local() };
                let is_early = is_same_release(named, version) && !named.any_prerelease() && version.any_prerelease();
                candidate.cmp(named) == Ordering::Less && !is_early
            }
            Operator::EqualStar => has_prefix(),
            Operator::NotEqualStar => !has_prefix(),
            _ => specifier.contains(version),
        }
    }

    /// The range of the specifier: as the ported crate says, but for `>V.postN`, which is mended; None where a number of a bound
    /// can't be raised.
    pub fn range(specifier: &VersionSpecifier) -> Option<Ranges<Version>> {
        let version = specifier.version();
        let release = version.release();
        let raised = match specifier.operator() {
            Operator::TildeEqual => release[release.len() - 2],
            Operator::EqualStar | Operator::NotEqualStar => {
                version.post().or(version.pre().map(|pre| pre.number)).unwrap_or(release[release.len() - 1])
            }
            Operator::GreaterThan => version.dev().or(version.post()).unwrap_or(0),
            _ => 0,
        };
        let above = raised.checked_add(1)?;
        if *specifier.operator() == Operator::GreaterThan && version.is_post() && !version.is_dev() {
            return Some(Ranges::higher_than(version.clone().with_post(Some(above)).with_dev(Some(0))));
        }
        Some(Ranges::from(specifier.clone()))
    }

    /// The release-only range of the specifier, as the ported crate says; None where a number of a bound can't be raised.
    pub fn release_range(specifier: &VersionSpecifier) -> Option<Ranges<Version>> {
        let release = specifier.version().release();
        let raised = match specifier.operator() {
            Operator::TildeEqual => release[release.len() - 2],
            Operator::EqualStar | Operator::NotEqualStar => release[release.len() - 1],
            _ => 0,
        };
        raised.checked_add(1).map(|_| release_specifier_to_range(specifier.clone()))
    }

    /// An error text without what depends on the width of a control character: a line of carets under a line that has one.
    pub fn without_widths(text: &str) -> &str {
        let has_control = text.chars().any(|letter| letter.is_control() && letter != '\n');
        let has_lines = text.matches('\n').count() != 3;
        if text.starts_with("Failed to parse version: ") && (has_control || has_lines) {
            text.trim_end_matches(['^', ' ', '\n'])
        } else {
            text
        }
    }
}
