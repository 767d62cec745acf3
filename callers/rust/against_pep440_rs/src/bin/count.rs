//! Calls of either crate, many times over, for counts of their instructions: count rows, or count WORD.. COUNT
//!
//! `rows` reads lines, a call and its arguments with bars between them, and makes each 100 and 1,100 times, first of this crate and then of the
//! ported one. A call named `with_..` changes a copy. `parse_..` of a part also parses the version, each time. `ranges` of a list
//! is the range as either crate offers it without another crate. `theirs parse_and_sort COUNT` sorts COUNT versions, `made COUNT` makes their strings.
use std::collections::hash_map::DefaultHasher;
use std::hash::{Hash, Hasher};
use std::hint::black_box;
use std::io::stdin;

/// Versions of three numbers, scrambled: one in eight each with a pre-release, a post-release and a dev.
fn strings(count: usize) -> Vec<String> {
    let string = |place: usize| {
        let number = place * 7919 % 1_000_003;
        let suffix = match number % 8 {
            1 => "rc",
            2 => ".post",
            3 => ".dev",
            _ => return format!("{}.{}.{}", number % 5, number / 5 % 40, number / 200 % 30),
        };
        format!("{}.{}.{}{suffix}{}", number % 5, number / 5 % 40, number / 200 % 30, number % 4)
    };
    (0..count).map(string).collect()
}

/// What is counted.
#[inline(never)]
fn repeat_call<T>(count: usize, call: impl Fn() -> T) {
    for _ in 0..count {
        black_box(call());
    }
}

fn hash(value: &impl Hash) -> u64 {
    let mut hasher = DefaultHasher::new();
    value.hash(&mut hasher);
    hasher.finish()
}

macro_rules! calls {
    ($krate:ident, $sets:path, $ranges:expr) => {
        pub mod $krate {
            use super::*;
            use against_pep440_rs::views::$krate::{
                LocalSegment, Operator, Prerelease, PrereleaseKind, Version, VersionPattern, VersionSpecifier, VersionSpecifiers,
            };
            use std::str::FromStr;
            use $sets as Ranges;

            fn parsed<T: FromStr>(text: &str) -> T {
                text.parse().ok().expect("what parses")
            }

            fn of_version(call: &str, text: &str, count: usize) {
                let one: Version = parsed(text);
                let copy = || black_box(&one).clone();
                match call {
                    "parse" => repeat_call(count, || parsed::<Version>(black_box(text))),
                    "parse_release" => repeat_call(count, || parsed::<Version>(black_box(text)).release().len()),
                    "parse_any_prerelease" => repeat_call(count, || parsed::<Version>(black_box(text)).any_prerelease()),
                    "display" => repeat_call(count, || black_box(&one).to_string()),
                    "hash" => repeat_call(count, || hash(black_box(&one))),
                    "clone" => repeat_call(count, copy),
                    "epoch" => repeat_call(count, || black_box(&one).epoch()),
                    "release" => repeat_call(count, || black_box(&one).release().len()),
                    "pre" => repeat_call(count, || black_box(&one).pre()),
                    "any_prerelease" => repeat_call(count, || black_box(&one).any_prerelease()),
                    "is_local" => repeat_call(count, || black_box(&one).is_local()),
                    "local" => repeat_call(count, || black_box(&one).local().len()),
                    "new" => repeat_call(count, || Version::new(black_box([1, 2, 3]))),
                    "with_release" => repeat_call(count, || copy().with_release(black_box([1, 2, 3]))),
                    "with_epoch" => repeat_call(count, || copy().with_epoch(black_box(1))),
                    "with_pre" => {
                        let pre = Prerelease { kind: PrereleaseKind::Rc, number: 1 };
                        repeat_call(count, || copy().with_pre(black_box(Some(pre))))
                    }
                    "with_post" => repeat_call(count, || copy().with_post(black_box(Some(4)))),
                    "with_dev" => repeat_call(count, || copy().with_dev(black_box(Some(0)))),
                    "with_local" => repeat_call(count, || copy().with_local(black_box(vec![LocalSegment::Number(5)]))),
                    "with_min" => repeat_call(count, || copy().with_min(black_box(Some(0)))),
                    "without_local" => repeat_call(count, || copy().without_local()),
                    "only_release" => repeat_call(count, || black_box(&one).only_release()),
                    _ => panic!("no call {call}"),
                }
            }

            fn of_versions(call: &str, left: &str, right: &str, count: usize) {
                let (left, right): (Version, Version) = (parsed(left), parsed(right));
                match call {
                    "cmp" => repeat_call(count, || black_box(&left).cmp(black_box(&right))),
                    "eq" => repeat_call(count, || black_box(&left) == black_box(&right)),
                    _ => panic!("no call {call}"),
                }
            }

            fn of_specifier(call: &str, text: &str, count: usize) {
                let (operator, version) = parsed::<VersionSpecifier>(text).into_parts();
                match call {
                    "parse_specifier" => repeat_call(count, || parsed::<VersionSpecifier>(black_box(text))),
                    "from_version" => {
                        repeat_call(count, || VersionSpecifier::from_version(operator, black_box(&version).clone()))
                    }
                    _ => panic!("no call {call}"),
                }
            }

            fn of_list(call: &str, text: &str, count: usize) {
                let one: VersionSpecifiers = parsed(text);
                match call {
                    "parse_list" => repeat_call(count, || parsed::<VersionSpecifiers>(black_box(text))),
                    "clone_list" => repeat_call(count, || black_box(&one).clone()),
                    "display_list" => repeat_call(count, || black_box(&one).to_string()),
                    "ranges" => repeat_call(count, || $ranges(black_box(&one))),
                    "Ranges" => repeat_call(count, || Ranges::<Version>::from(black_box(&one).clone())),
                    _ => panic!("no call {call}"),
                }
            }

            fn of_string(call: &str, text: &str, count: usize) {
                match call {
                    "operator" => repeat_call(count, || Operator::from_str(black_box(text))),
                    "pattern" => repeat_call(count, || VersionPattern::from_str(black_box(text))),
                    "rejected" => repeat_call(count, || Version::from_str(black_box(text)).is_err()),
                    "rejected_list" => repeat_call(count, || VersionSpecifiers::from_str(black_box(text)).is_err()),
                    "error" => repeat_call(count, || Version::from_str(black_box(text)).map_err(|error| error.to_string())),
                    _ => panic!("no call {call}"),
                }
            }

            fn contains(text: &str, candidate: &str, count: usize) {
                let (list, version): (VersionSpecifiers, Version) = (parsed(text), parsed(candidate));
                repeat_call(count, || black_box(&list).contains(black_box(&version)));
            }

            pub fn parse_and_sort(count: usize) {
                let mut versions: Vec<Version> = strings(count).iter().map(|text| parsed(text)).collect();
                versions.sort();
                black_box(versions);
            }

            pub fn run(words: &[&str], count: usize) {
                match words {
                    [call @ ("parse_list" | "clone_list" | "display_list" | "ranges" | "Ranges"), text] => {
                        of_list(call, text, count)
                    }
                    [call @ ("parse_specifier" | "from_version"), text] => of_specifier(call, text, count),
                    [call @ ("operator" | "pattern" | "rejected" | "rejected_list" | "error"), text] => {
                        of_string(call, text, count)
                    }
                    ["contains", text, candidate] => contains(text, candidate, count),
                    [call, text] => of_version(call, text, count),
                    [call, left, right] => of_versions(call, left, right, count),
                    _ => panic!("no call {words:?}"),
                }
            }
        }
    };
}

calls!(ours, stand_in::Ranges, |list: &VersionSpecifiers| list.ranges());
calls!(theirs, against_pep440_rs::version_ranges::Ranges, |list: &VersionSpecifiers| Ranges::<Version>::from(list.clone()));

fn count_rows() {
    for line in stdin().lines() {
        let line = line.expect("a line");
        let words: Vec<&str> = line.split('|').collect();
        for run in [ours::run, theirs::run] {
            [100, 1100].iter().for_each(|count| run(&words, *count));
        }
    }
}

fn main() {
    let words: Vec<String> = std::env::args().skip(1).collect();
    let count = || words.last().expect("a count").parse().expect("a count");
    match words.iter().map(String::as_str).collect::<Vec<_>>().as_slice() {
        ["rows"] => count_rows(),
        ["ours", "parse_and_sort", _] => ours::parse_and_sort(count()),
        ["theirs", "parse_and_sort", _] => theirs::parse_and_sort(count()),
        ["made", _] => drop(black_box(strings(count()))),
        _ => panic!("no call {words:?}"),
    }
}
