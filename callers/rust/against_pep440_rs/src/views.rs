//! The same view of the values of either crate: what its calls return, as strings.

use std::collections::hash_map::DefaultHasher;
use std::hash::{Hash, Hasher};

/// A call of a setter.
#[derive(Clone, Debug)]
pub enum Change {
    Release(Vec<u64>),
    Epoch(u64),
    Pre(Option<(u64, u64)>),
    Post(Option<u64>),
    Dev(Option<u64>),
    /// A number, or a string.
    Local(Vec<Result<u64, String>>),
    WithoutLocal,
    OnlyRelease,
    Min(Option<u64>),
    Max(Option<u64>),
}

/// What a hasher makes of the value.
pub fn hash<T: Hash>(value: &T) -> u64 {
    let mut hasher = DefaultHasher::new();
    value.hash(&mut hasher);
    hasher.finish()
}

macro_rules! views {
    ($name:ident, $krate:path) => {
        pub mod $name {
            use super::{hash, Change};
            pub use it::*;
            use std::error::Error;
            use std::fmt::{Debug, Display};
            use std::hash::Hash;
            use std::ops::{Bound, Deref};
            use std::str::FromStr;
            use $krate as it;

            /// Each trait of each type: what lacks one does not compile.
            pub fn traits() {
                fn value<T: Clone + Debug + Eq + Hash + Send + Sync + Unpin + 'static>() {}
                fn ordered<T: Ord>() {}
                fn copied<T: Copy>() {}
                fn shown<T: Display>() {}
                fn parsed<T: FromStr<Err = E>, E: Error>() {}
                fn error<T: Error + Clone + Eq + Send + Sync + Unpin + 'static>() {}
                fn list<T>()
                where
                    T: Default + FromIterator<VersionSpecifier> + From<VersionSpecifier>,
                    T: Deref<Target = [VersionSpecifier]> + IntoIterator<Item = VersionSpecifier>,
                {
                }
                fn lazy<T: Deref<Target = Version>>(_: &'static T) {}
                (value::<Version>(), ordered::<Version>(), shown::<Version>(), parsed::<Version, VersionParseError>());
                (value::<VersionPattern>(), parsed::<VersionPattern, VersionPatternParseError>());
                (value::<Operator>(), ordered::<Operator>(), shown::<Operator>(), parsed::<Operator, OperatorParseError>());
                (value::<VersionSpecifier>(), ordered::<VersionSpecifier>(), shown::<VersionSpecifier>());
                (value::<VersionSpecifiers>(), ordered::<VersionSpecifiers>(), shown::<VersionSpecifiers>());
                (list::<VersionSpecifiers>(), parsed::<VersionSpecifiers, VersionSpecifiersParseError>());
                (value::<Prerelease>(), ordered::<Prerelease>(), copied::<Prerelease>(), shown::<Prerelease>());
                (value::<PrereleaseKind>(), ordered::<PrereleaseKind>(), copied::<PrereleaseKind>(), shown::<PrereleaseKind>());
                (value::<LocalSegment>(), ordered::<LocalSegment>(), shown::<LocalSegment>(), copied::<Operator>());
                (error::<VersionParseError>(), error::<VersionPatternParseError>(), error::<OperatorParseError>());
                (error::<VersionSpecifierBuildError>(), error::<VersionSpecifiersParseError>());
                let _: fn(VersionParseError) -> VersionPatternParseError = From::from;
                let _: fn(&str) -> Result<VersionSpecifier, <VersionSpecifier as FromStr>::Err> = FromStr::from_str;
                lazy(&MIN_VERSION);
            }

            pub fn version(text: &str) -> Option<Version> {
                text.parse().ok()
            }

            fn said<T, E: std::error::Error + Clone + PartialEq>(
                result: Result<T, E>,
                show: impl FnOnce(T) -> String,
            ) -> Result<String, String> {
                result.map(show).map_err(|error| {
                    assert!(error.clone() == error && error.source().is_none());
                    error.to_string()
                })
            }

            pub fn show_version(version: &Version) -> String {
                let tests = [
                    version.any_prerelease(),
                    version.is_stable(),
                    version.is_pre(),
                    version.is_dev(),
                    version.is_post(),
                    version.is_local(),
                ];
                format!(
                    "{version} {version:>40} {version:?} {} {:?} {:?} {:?} {:?} {:?} {:?} {:?} {tests:?}",
                    version.epoch(),
                    version.release(),
                    version.pre(),
                    version.post(),
                    version.dev(),
                    version.local(),
                    version.min(),
                    version.max(),
                )
            }

            pub fn show_segments(version: &Version) -> String {
                let mut sorted = version.local().to_vec();
                sorted.sort();
                let shown: Vec<String> = sorted.iter().map(|segment| format!("{segment} {segment:>9}")).collect();
                let hashes: Vec<u64> = sorted.iter().map(hash).collect();
                format!(
                    "{shown:?} {hashes:?} {:?}",
                    version.pre().map(|pre| (
                        format!("{pre} {pre:>9}"),
                        format!("{} {:>9}", pre.kind, pre.kind),
                        (hash(&pre), hash(&pre.kind)),
                        pre > Prerelease { kind: PrereleaseKind::Beta, number: 1 }
                    ))
                )
            }

            pub fn show_specifier(specifier: &VersionSpecifier) -> String {
                let (operator, version) = specifier.clone().into_parts();
                assert!(operator == *specifier.operator() && version == *specifier.version());
                format!(
                    "{specifier} {specifier:>40} {specifier:?} {:?} {} {}",
                    specifier.operator(),
                    specifier.any_prerelease(),
                    specifier.has_lower_bound()
                )
            }

            pub fn show_list(list: &VersionSpecifiers) -> String {
                let members: Vec<String> = list.iter().map(show_specifier).collect();
                format!("{list} {list:>80} {list:?} {} {} {members:?}", list.len(), list.is_empty())
            }

            pub fn parse_version(text: &str) -> Result<String, String> {
                let parsed = text.parse::<Version>();
                let of_pattern = parsed.clone().err().map(|error| VersionPatternParseError::from(error).to_string());
                said(parsed, |version| show_version(&version) + &show_segments(&version))
                    .map_err(|error| format!("{error} {of_pattern:?}"))
            }

            pub fn parse_pattern(text: &str) -> Result<String, String> {
                said(text.parse::<VersionPattern>(), |pattern| {
                    let verbatim = VersionPattern::verbatim(pattern.version().clone());
                    let wildcard = VersionPattern::wildcard(pattern.version().clone());
                    let hashes = [hash(&pattern) == hash(&verbatim), hash(&pattern) == hash(&wildcard)];
                    format!(
                        "{pattern:?} {} {:?} {} {} {hashes:?}",
                        pattern.is_wildcard(),
                        pattern.version(),
                        pattern == verbatim,
                        pattern == wildcard,
                    ) + &pattern.into_version().to_string()
                })
            }

            pub fn parse_specifier(text: &str) -> Result<String, String> {
                said(text.parse::<VersionSpecifier>(), |specifier| show_specifier(&specifier))
            }

            pub fn parse_list(text: &str) -> Result<String, String> {
                said(text.parse::<VersionSpecifiers>(), |list| {
                    let again: VersionSpecifiers = list.iter().rev().cloned().collect();
                    let one: Vec<String> =
                        list.first().map(|first| VersionSpecifiers::from(first.clone()).to_string()).into_iter().collect();
                    format!("{} {} {one:?} ", show_list(&list), show_list(&again))
                        + &list.into_iter().map(|member| member.to_string()).collect::<String>()
                })
            }

            pub fn line_of_error(text: &str) -> Option<String> {
                text.parse::<VersionSpecifiers>().err().map(|error| error.line().clone())
            }

            pub fn parse_operator(text: &str) -> Result<String, String> {
                let parsed = text.parse::<Operator>();
                said(parsed.clone(), |operator| show_operator(operator)).map_err(|error| format!("{error} {parsed:?}"))
            }

            pub fn show_operator(operator: Operator) -> String {
                format!(
                    "{operator} {operator:>9} {operator:?} {:?} {} {:?} {}",
                    operator.negate(),
                    operator.is_star(),
                    operators().map(|other| operator.cmp(&other)),
                    hash(&operator)
                )
            }

            pub fn operators() -> [Operator; 10] {
                use it::Operator::*;
                [
                    Equal,
                    EqualStar,
                    ExactEqual,
                    NotEqual,
                    NotEqualStar,
                    TildeEqual,
                    LessThan,
                    LessThanEqual,
                    GreaterThan,
                    GreaterThanEqual,
                ]
            }

            pub fn made(operator: usize, version: &Version, wildcard: bool) -> Result<String, String> {
                let pattern =
                    if wildcard { VersionPattern::wildcard(version.clone()) } else { VersionPattern::verbatim(version.clone()) };
                let direct =
                    said(VersionSpecifier::from_version(operators()[operator], version.clone()), |made| show_specifier(&made));
                said(VersionSpecifier::from_pattern(operators()[operator], pattern), |made| show_specifier(&made))
                    .map(|shown| format!("{shown} {direct:?}"))
            }

            /// A specifier by a call that checks nothing, where there is one.
            pub fn unchecked(operator: usize, version: Version) -> Option<VersionSpecifier> {
                use it::Operator::*;
                Some(match operators()[operator] {
                    Equal => VersionSpecifier::equals_version(version),
                    EqualStar => VersionSpecifier::equals_star_version(version),
                    NotEqual => VersionSpecifier::not_equals_version(version),
                    NotEqualStar => VersionSpecifier::not_equals_star_version(version),
                    LessThan => VersionSpecifier::less_than_version(version),
                    LessThanEqual => VersionSpecifier::less_than_equal_version(version),
                    GreaterThan => VersionSpecifier::greater_than_version(version),
                    GreaterThanEqual => VersionSpecifier::greater_than_equal_version(version),
                    other => return VersionSpecifier::from_version(other, version).ok(),
                })
            }

            /// Whether a sentinel may be set.
            pub fn is_allowed(version: &Version, change: &Change) -> bool {
                match change {
                    Change::Min(_) => !version.any_prerelease(),
                    Change::Max(_) => !version.is_post() && !version.is_dev(),
                    _ => true,
                }
            }

            pub fn change(version: Version, change: &Change) -> Version {
                match change.clone() {
                    Change::Release(numbers) => version.with_release(numbers),
                    Change::Epoch(number) => version.with_epoch(number),
                    Change::Pre(value) => version.with_pre(value.map(|(kind, number)| {
                        let kind = [PrereleaseKind::Alpha, PrereleaseKind::Beta, PrereleaseKind::Rc][kind as usize];
                        Prerelease { kind, number }
                    })),
                    Change::Post(value) => version.with_post(value),
                    Change::Dev(value) => version.with_dev(value),
                    Change::Local(values) => {
                        let segment = |value| match value {
                            Ok(number) => LocalSegment::Number(number),
                            Err(string) => LocalSegment::String(string),
                        };
                        version.with_local(values.into_iter().map(segment).collect())
                    }
                    Change::WithoutLocal => version.without_local(),
                    Change::OnlyRelease => version.only_release(),
                    Change::Min(value) => version.with_min(value),
                    Change::Max(value) => version.with_max(value),
                }
            }

            /// The version after those of the changes that may be made.
            pub fn changed(mut version: Version, changes: &[Change]) -> Version {
                for each in changes {
                    if is_allowed(&version, each) {
                        version = change(version, each);
                    }
                }
                version
            }

            pub fn bound(kind: u64, version: Version) -> Bound<Version> {
                match kind {
                    0 => Bound::Unbounded,
                    1 => Bound::Included(version),
                    _ => Bound::Excluded(version),
                }
            }

            fn show_bound(bound: &Bound<Version>) -> String {
                match bound {
                    Bound::Unbounded => "*".into(),
                    Bound::Included(version) => format!("={}", show_version(version)),
                    Bound::Excluded(version) => format!("!{}", show_version(version)),
                }
            }

            pub fn show_bounds<'a>(bounds: impl Iterator<Item = (&'a Bound<Version>, &'a Bound<Version>)>) -> Vec<String> {
                bounds.map(|(low, high)| format!("{} {}", show_bound(low), show_bound(high))).collect()
            }

            /// Lists and specifiers of bounds.
            pub fn from_bounds(bounds: &[(u64, Vec<u64>, u64, Vec<u64>)]) -> String {
                let made: Vec<(Bound<Version>, Bound<Version>)> = bounds
                    .iter()
                    .map(|(low, from, high, to)| (bound(*low, Version::new(from)), bound(*high, Version::new(to))))
                    .collect();
                let list = VersionSpecifiers::from_release_only_bounds(made.iter().map(|(low, high)| (low, high)));
                let mut shown = show_list(&list);
                for (low, high) in &made {
                    let pair: Vec<String> =
                        VersionSpecifier::from_release_only_bounds((low, high)).map(|made| made.to_string()).collect();
                    shown += &format!(
                        "{pair:?} {:?} {:?}",
                        VersionSpecifier::from_lower_bound(low),
                        VersionSpecifier::from_upper_bound(high)
                    );
                }
                shown
            }
        }
    };
}

views!(ours, pep440_rattle);
views!(theirs, crate::peer);
