//! Compares what the crate does itself with what the library does: strings of a few letters and versions of small parts, all of them, and
//! others by chance. Setters with `pep440_edit`, parts with `pep440_parts_of`, order with `pep440_compare`, which versions an operator takes with
//! `pep440_build_error`, and versions, specifiers and lists as they are read and printed with what the library prints.
//!
//! Usage: library [COUNT [SEED]]    (1,000,000 of each by chance, seed 440)
use against_pep440_rs::chance::{Chance, OPERATORS};
use against_pep440_rs::library;
use against_pep440_rs::views::ours::{self, LocalSegment, Version, VersionPattern, VersionSpecifier, VersionSpecifiers};
use against_pep440_rs::views::{hash, Change};

/// The normalized form, and the sentinels as the library prints them.
fn show(version: &Version) -> String {
    let sentinel = |name: &str, number: Option<u64>| number.map(|number| format!("~{name}{number}")).unwrap_or_default();
    format!("{version}{}{}", sentinel("min", Version::min(version)), sentinel("max", Version::max(version)))
}

/// The parts are those of the string.
fn compare_parts(version: &Version, text: &str) {
    let (parts, release) = library::parts_of(text.as_bytes()).expect("a version");
    let [post, dev] =
        [(parts.has_post, parts.post), (parts.has_dev, parts.dev)].map(|(has, number)| (has == 1).then_some(number));
    let pre = version.pre().map_or((0, 0), |pre| (pre.kind as u8 + 1, pre.number));
    let found = (version.epoch(), version.release(), pre, version.post(), version.dev());
    assert_eq!(found, (parts.epoch, &*release, (parts.pre_kind, parts.pre), post, dev), "{text}");
    let (is_pre, is_early) = (parts.pre_kind != 0, parts.pre_kind != 0 || dev.is_some());
    let tests = [version.is_pre(), version.is_post(), version.is_dev(), version.any_prerelease(), !version.is_stable()];
    assert_eq!(tests, [is_pre, post.is_some(), dev.is_some(), is_early, is_early], "{text}");
    let segment = |text: &str| text.parse().map_or_else(|_| LocalSegment::String(text.to_owned()), LocalSegment::Number);
    let local: Vec<LocalSegment> =
        text.split_once('+').map_or_else(Vec::new, |(_, local)| local.split('.').map(segment).collect());
    assert_eq!((version.local(), version.is_local()), (&*local, parts.has_local == 1), "{text}");
}

/// Whether the string is a version.
fn compare_version(text: &str) -> bool {
    let (parsed, normal) = (text.parse::<Version>(), library::normalize(text.as_bytes()));
    assert_eq!(parsed.is_ok(), normal.is_ok(), "{text:?}");
    let Ok(version) = parsed else { return false };
    assert_eq!(Ok(version.to_string().into_bytes()), normal, "{text:?}");
    compare_parts(&version, &version.to_string());
    true
}

/// Whether the string is a list.
fn compare_list(text: &str) -> bool {
    let (list, one) = (text.parse::<VersionSpecifiers>(), text.parse::<VersionSpecifier>());
    assert_eq!(one.is_ok(), library::compile_specifier(text.as_bytes()).is_ok(), "{text:?}");
    let normal = library::normalize_list(text.as_bytes());
    assert_eq!(list.is_ok(), normal.is_ok(), "{text:?}");
    for shown in [list.map(|list| list.to_string()).ok(), one.map(|one| one.to_string()).ok()].into_iter().flatten() {
        assert_eq!(Ok(shown.into_bytes()), normal, "{text:?}");
    }
    normal.is_ok()
}

fn compare_order(left: &str, right: &str) {
    let order = library::compare(left.as_bytes(), right.as_bytes());
    let [left_version, right_version] = [left, right].map(|text| text.parse::<Version>().expect("a version"));
    let is_equal = left_version == right_version && hash(&left_version) == hash(&right_version);
    assert_eq!((left_version.cmp(&right_version), is_equal), (order, order.is_eq()), "{left:?} {right:?}");
}

/// A change as the library takes it; none for a local part that no string has.
fn word(change: &Change) -> Option<String> {
    let optional = |name: &str, number: &Option<u64>| format!("{name}={}", number.map(|it| it.to_string()).unwrap_or_default());
    Some(match change {
        Change::Release(numbers) => {
            let numbers: Vec<String> = numbers.iter().map(u64::to_string).collect();
            format!("release={}", numbers.join("."))
        }
        Change::Epoch(number) => format!("epoch={number}"),
        Change::Pre(None) => "pre=".to_owned(),
        Change::Pre(Some((kind, number))) => format!("pre={}{number}", ["a", "b", "rc"][*kind as usize]),
        Change::Post(number) => optional("post", number),
        Change::Dev(number) => optional("dev", number),
        Change::Min(number) => optional("min", number),
        Change::Max(number) => optional("max", number),
        Change::Local(segments) => {
            let segment = |segment: &Result<u64, String>| match segment {
                Ok(number) => Some(number.to_string()),
                Err(text) => (!text.is_empty() && text.bytes().all(|byte| byte.is_ascii_lowercase())).then(|| text.clone()),
            };
            format!("local={}", segments.iter().map(segment).collect::<Option<Vec<_>>>()?.join("."))
        }
        Change::WithoutLocal => "without-local".to_owned(),
        Change::OnlyRelease => "only-release".to_owned(),
    })
}

/// The changes that may be made, one after the other.
fn compare_edit(text: &str, changes: &[Change]) {
    let (mut version, mut words): (Version, Vec<String>) = (text.parse().expect("a version"), Vec::new());
    for change in changes {
        if let Some(word) = word(change).filter(|_| ours::is_allowed(&version, change)) {
            words.push(word);
            version = ours::change(version, change);
        }
    }
    assert_eq!(Ok(show(&version).into_bytes()), library::edit(text.as_bytes(), &words), "{text:?} {words:?}");
    compare_parts(&version, &version.to_string());
    let is_parsed = Version::min(&version).or(Version::max(&version)).is_none();
    assert!(!is_parsed || version.to_string().parse() == Ok(version), "{text:?} {words:?}");
}

/// Whether the operator takes the version, with a star and without.
fn compare_build(operator: usize, text: &str) {
    let (version, named): (Version, _) = (text.parse().expect("a version"), ours::operators()[operator]);
    let said =
        |made: Result<_, ours::VersionSpecifierBuildError>| made.map_or_else(|it| it.to_string(), |_| String::new()).into_bytes();
    let wanted = |star| library::build_error(operator, text.as_bytes(), star);
    assert_eq!(said(VersionSpecifier::from_version(named, version.clone())), wanted(false), "{operator} {text:?}");
    for (star, pattern) in [(false, VersionPattern::verbatim(version.clone())), (true, VersionPattern::wildcard(version))] {
        assert_eq!(said(VersionSpecifier::from_pattern(named, pattern)), wanted(star), "{operator} {text:?} {star}");
    }
}

/// Each string of at most so many of the letters, how many of which the call returns true for.
fn each_string(letters: &str, most: usize, call: fn(&str) -> bool) -> String {
    let (mut strings, mut made, mut valid) = (vec![String::new()], 0, 0);
    for length in 0..=most {
        made += strings.len();
        valid += strings.iter().filter(|text| call(text)).count();
        if length < most {
            strings = strings.iter().flat_map(|text| letters.chars().map(move |letter| format!("{text}{letter}"))).collect();
        }
    }
    format!("{valid} of {made}")
}

/// Each way to join one string of each group.
fn joined(groups: &[&[&str]]) -> Vec<String> {
    groups.iter().fold(vec![String::new()], |all, group| {
        all.iter().flat_map(|text| group.iter().map(move |next| format!("{text}{next}"))).collect()
    })
}

/// All versions of small parts, with epochs or without.
fn small_versions(epochs: &[&str]) -> Vec<String> {
    let (first, more) = (["0", "1", "256"], ["", ".0", ".1", ".256"]);
    let releases: [&[&str]; 3] = [&first, &more, &more];
    let suffixes: [&[&str]; 4] =
        [&["", "a0", "b1", "rc256"], &["", ".post0", ".post256"], &["", ".dev0", ".dev256"], &["", "+0", "+256", "+a", "+a.1"]];
    joined(&[&[epochs][..], &releases, &suffixes].concat())
}

fn small_changes() -> Vec<Change> {
    let numbers = [None, Some(0), Some(256)];
    let mut changes = vec![Change::WithoutLocal, Change::OnlyRelease, Change::Local(Vec::new()), Change::Pre(None)];
    changes.extend([vec![0], vec![1, 0], vec![2, 256, 0], vec![1, 2, 3, 4, 5]].map(Change::Release));
    changes.extend([0, 1, 256].map(Change::Epoch));
    changes.extend([(0, 0), (1, 1), (2, 256)].map(|pre| Change::Pre(Some(pre))));
    changes.extend([vec![Ok(0)], vec![Ok(256)], vec![Err("a".to_owned()), Ok(1)]].map(Change::Local));
    for make in [Change::Post, Change::Dev, Change::Min, Change::Max] {
        changes.extend(numbers.map(make));
    }
    changes
}

/// All of what is short or small.
fn exhaust() {
    let versions = each_string("10.arcdev+-!", 5, compare_version);
    let lists = each_string("=<>!~1.*, ", 6, compare_list);
    let (small, changes) = (small_versions(&["", "1!"]), small_changes());
    for text in &small {
        changes.iter().for_each(|change| compare_edit(text, std::slice::from_ref(change)));
        (0..ours::operators().len()).for_each(|operator| compare_build(operator, text));
    }
    let ordered: Vec<String> = small_versions(&[""]).into_iter().filter(|text| !text.contains("256")).collect();
    for left in &ordered {
        ordered.iter().for_each(|right| compare_order(left, right));
    }
    println!(
        "short strings: {versions} are versions, {lists} lists; {} versions with {} changes each and all operators; {} pairs",
        small.len(),
        changes.len(),
        ordered.len() * ordered.len()
    );
}

fn some_version(chance: &mut Chance) -> String {
    loop {
        let text = chance.version();
        if ours::version(&text).is_some() {
            return text;
        }
    }
}

fn main() {
    let mut words = std::env::args().skip(1);
    let count: u64 = words.next().map_or(1_000_000, |word| word.parse().expect("a count"));
    let mut chance = Chance::new(words.next().map_or(440, |word| word.parse().expect("a seed")));
    exhaust();
    let (mut versions, mut lists) = (0, 0);
    for _ in 0..count {
        let (version, list) = (chance.version(), chance.list());
        versions += u64::from(compare_version(&chance.damaged(version)));
        lists += u64::from(compare_list(&chance.damaged(list)));
        let (left, right) = (some_version(&mut chance), some_version(&mut chance));
        compare_order(&left, &right);
        compare_edit(&left, &chance.changes());
        compare_build(chance.below(10) as usize, &right);
    }
    println!("by chance: {versions} of {count} strings are versions, {lists} lists; as many pairs, edits and operators with a version: 0 differ");
    assert!(versions > count / 2 && lists > count / 2 && OPERATORS.len() == 8, "each result is met");
}
