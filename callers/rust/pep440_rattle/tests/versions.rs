//! Versions: what PEP 440 says of spellings, order and parts, and what this crate says of its calls.
use pep440_rattle::*;
use std::cmp::Ordering;
use std::collections::hash_map::DefaultHasher;
use std::hash::{Hash, Hasher};

fn version(text: &str) -> Version {
    text.parse().unwrap_or_else(|error| panic!("{text}: {error}"))
}

fn hash(version: &Version) -> u64 {
    let mut hasher = DefaultHasher::new();
    version.hash(&mut hasher);
    hasher.finish()
}

/// PEP 440, "Normalization".
#[test]
fn spellings() {
    let pairs = [
        ("1.1RC1", "1.1rc1"),
        ("00", "0"),
        ("09000", "9000"),
        ("1.0+foo0100", "1.0+foo0100"),
        ("1.1.a1", "1.1a1"),
        ("1.1-a1", "1.1a1"),
        ("1.1a.1", "1.1a1"),
        ("1.1alpha1", "1.1a1"),
        ("1.1beta2", "1.1b2"),
        ("1.1c3", "1.1rc3"),
        ("1.1pre3", "1.1rc3"),
        ("1.2a", "1.2a0"),
        ("1.2-post2", "1.2.post2"),
        ("1.2.post-2", "1.2.post2"),
        ("1.0-r4", "1.0.post4"),
        ("1.2.post", "1.2.post0"),
        ("1.0-1", "1.0.post1"),
        ("1.2-dev2", "1.2.dev2"),
        ("1.2dev2", "1.2.dev2"),
        ("1.2.dev", "1.2.dev0"),
        ("1.0+ubuntu-1", "1.0+ubuntu.1"),
        ("v1.0", "1.0"),
        (" 1.0\n", "1.0"),
        ("1!2.0.1.0.0.0", "1!2.0.1.0.0.0"),
    ];
    for (written, normalized) in pairs {
        assert_eq!(version(written).to_string(), normalized, "{written}");
        assert_eq!(format!("{:?} {:>9}", version(written), version(written)), format!("{normalized:?} {normalized}"));
    }
}

/// PEP 440, "Summary of permitted suffixes and relative ordering", with local versions, sentinels and epochs.
#[test]
fn order() {
    let mut ascending: Vec<Version> = [
        "1.dev0",
        "1.0.dev456",
        "1.0a1",
        "1.0a2.dev456",
        "1.0a12.dev456",
        "1.0a12",
        "1.0b1.dev456",
        "1.0b2",
        "1.0b2.post345.dev456",
        "1.0b2.post345",
        "1.0rc1.dev456",
        "1.0rc1",
        "1.0",
        "1.0+abc.5",
        "1.0+abc.7",
        "1.0+5",
        "1.0.post456.dev34",
        "1.0.post456",
        "1.0.15",
        "1.1.dev1",
        "1.9",
        "1.10",
        "1.256",
        "256.0.0.0.0.1",
        "70000",
        "1!0.1",
    ]
    .map(version)
    .into();
    ascending.insert(0, version("1.0").with_min(Some(0)));
    ascending.insert(19, version("1.0").with_max(Some(0)));
    for (left, low) in ascending.iter().enumerate() {
        for (right, high) in ascending.iter().enumerate() {
            assert_eq!(low.cmp(high), left.cmp(&right), "{low} {high}");
            assert_eq!(low == high, left == right, "{low} {high}");
        }
    }
    let mut sorted = ascending.clone();
    sorted.reverse();
    sorted.sort();
    assert_eq!(sorted, ascending);
    assert_eq!(*MIN_VERSION, version("0a0.dev0"));
}

#[test]
fn equal_versions_hash_alike() {
    let same = [
        vec!["1.0", "1", "1.0.0.0", "1.0.0.0.0", "v1.0", "1.0.0.0.0.0.0"],
        vec!["1.0a1", "1a1", "1.0.0.0.0a1"],
        vec!["1.0+a.1", "1+A-1", "1.0.0.0.0+a_01"],
        vec!["1!1.0", "1!1.0.0.0.0.0"],
        vec!["1.0rc1.post2.dev3", "1.0.0.0.0rc1.post2.dev3"],
        vec!["0", "0.0.0.0.0"],
    ];
    for (place, group) in same.iter().enumerate() {
        for text in group {
            assert_eq!(version(text), version(group[0]), "{text}");
            assert_eq!(hash(&version(text)), hash(&version(group[0])), "{text}");
        }
        for other in &same[..place] {
            assert_ne!(version(other[0]), version(group[0]));
        }
    }
    let hidden = version("1.0").with_min(Some(3)).with_pre(Some(Prerelease { kind: PrereleaseKind::Rc, number: 1 }));
    assert_eq!(hidden.cmp(&version("1").with_min(Some(3))), Ordering::Equal);
    assert_eq!(hash(&hidden), hash(&version("1").with_min(Some(3))));
}

#[test]
fn parts() {
    let long = version("4!5.6.7.8.9a8.post9.dev0+Ubuntu.007.18446744073709551616");
    assert_eq!((long.epoch(), long.release()), (4, &[5, 6, 7, 8, 9][..]));
    assert_eq!(long.pre(), Some(Prerelease { kind: PrereleaseKind::Alpha, number: 8 }));
    assert_eq!((long.post(), long.dev(), Version::min(&long), Version::max(&long)), (Some(9), Some(0), None, None));
    let string = |text: &str| LocalSegment::String(text.to_owned());
    assert_eq!(long.local(), [string("ubuntu"), LocalSegment::Number(7), string("18446744073709551616")]);
    assert!(long.any_prerelease() && long.is_pre() && long.is_dev() && long.is_post() && long.is_local() && !long.is_stable());
    let short = version("1.0.0");
    assert_eq!((short.epoch(), short.release(), short.local()), (0, &[1, 0, 0][..], &[][..]));
    assert!(
        !short.any_prerelease()
            && !short.is_pre()
            && !short.is_dev()
            && !short.is_post()
            && !short.is_local()
            && short.is_stable()
    );
    assert_eq!(version("1rc2").pre().map(|pre| pre.to_string()), Some("rc2".to_owned()));
    assert!(
        string("z") < LocalSegment::Number(0) && string("a") < string("b") && LocalSegment::Number(9) < LocalSegment::Number(10)
    );
}

#[test]
fn setters() {
    let release = Version::new([1, 2, 3]);
    assert_eq!(release.to_string(), "1.2.3");
    let numbers = [70_000, 2, 3, 4, 5];
    assert_eq!(Version::new(&numbers[1..]).to_string(), "2.3.4.5");
    assert_eq!(Version::new(numbers).to_string(), "70000.2.3.4.5");
    let pre = Prerelease { kind: PrereleaseKind::Beta, number: 4 };
    let local = vec![LocalSegment::String("cu".to_owned()), LocalSegment::Number(118)];
    let full = release.clone().with_epoch(1).with_pre(Some(pre)).with_post(Some(5)).with_dev(Some(6)).with_local(local);
    assert_eq!(full.to_string(), "1!1.2.3b4.post5.dev6+cu.118");
    assert_eq!(full, version("1!1.2.3b4.post5.dev6+cu.118"));
    assert_eq!(full.only_release().to_string(), "1.2.3");
    assert_eq!(full.clone().without_local().to_string(), "1!1.2.3b4.post5.dev6");
    let back = full.with_epoch(0).with_pre(None).with_post(None).with_dev(None).with_local(vec![]);
    assert_eq!((back.cmp(&release), back.to_string()), (Ordering::Equal, "1.2.3".to_owned()));
    let sentinel = release.clone().with_max(Some(2));
    assert_eq!((Version::max(&sentinel), sentinel.to_string()), (Some(2), "1.2.3".to_owned()));
    assert!(sentinel > version("1.2.3.post18446744073709551615") && sentinel < version("1.2.3.1.dev0"));
    assert!(release.clone().with_min(Some(0)) < version("1.2.3.dev0") && release.with_min(Some(0)) > version("1.2.2.9"));
}

/// Pre-releases and local segments alone are written as in the normalized form of a version, and ordered as in versions.
#[test]
fn parts_alone() {
    for kind in [PrereleaseKind::Alpha, PrereleaseKind::Beta, PrereleaseKind::Rc] {
        for number in [0, 9, 10, 2_097_151, 2_097_152, u64::MAX] {
            let pre = Prerelease { kind, number };
            let whole = Version::new([1]).with_pre(Some(pre)).to_string();
            assert_eq!(whole, format!("1{pre}"));
            assert_eq!(whole, format!("1{kind}{number}"));
        }
    }
    let string = |text: &str| LocalSegment::String(text.to_owned());
    let segments =
        [string("a"), string("ubuntu"), string("18446744073709551616"), LocalSegment::Number(0), LocalSegment::Number(10)];
    for left in &segments {
        for right in &segments {
            let whole = Version::new([1]).with_local(vec![left.clone(), right.clone()]);
            assert_eq!(whole.to_string(), format!("1+{left}.{right}"));
            let alone = |segment: &LocalSegment| Version::new([1]).with_local(vec![segment.clone()]);
            assert_eq!(left.cmp(right), alone(left).cmp(&alone(right)));
        }
    }
}

/// Local strings that no parsed version has.
#[test]
fn strings_with_zero_bytes() {
    let with = |text: &str| Version::new([1]).with_local(vec![LocalSegment::String(text.to_owned()), LocalSegment::Number(1)]);
    let ascending = ["", "\0", "\0\0", "a", "a\0", "a\0\u{1}", "a\0b", "a\u{1}", "b"].map(with);
    for (left, low) in ascending.iter().enumerate() {
        for (right, high) in ascending.iter().enumerate() {
            assert_eq!((low.cmp(high), low == high), (left.cmp(&right), left == right), "{low:?} {high:?}");
        }
    }
}

#[test]
fn panics() {
    let fails = |call: fn() -> Version| assert!(std::panic::catch_unwind(call).is_err());
    fails(|| Version::new([0; 0]));
    fails(|| version("1.0").with_release([0; 0]));
    fails(|| version("1.0a1").with_min(Some(0)));
    fails(|| version("1.0.dev1").with_min(None));
    fails(|| version("1.0.post1").with_max(Some(0)));
    fails(|| version("1.0.dev1").with_max(Some(0)));
}

#[test]
fn errors() {
    let pairs = [
        ("", "expected version to start with a number, but no leading ASCII digits were found"),
        ("1.0prev", "after parsing `1.0pre`, found `v`, which is not part of a valid version"),
        ("1.*", "wildcards are not allowed in a version"),
    ];
    for (text, wanted) in pairs {
        let error = text.parse::<Version>().unwrap_err();
        assert_eq!(error.to_string(), wanted);
        assert_eq!(error.clone(), error);
    }
    assert_ne!("".parse::<Version>().unwrap_err(), "1.*".parse::<Version>().unwrap_err());
}

/// More bytes than a call is given room for at first.
#[test]
fn long_versions() {
    let numbers: Vec<u64> = (0..500).map(|place| u64::MAX - place).collect();
    let long = Version::new(&numbers).with_local(vec![LocalSegment::String("a".repeat(1000))]);
    assert_eq!(long.release(), numbers);
    let again = version(&long.to_string());
    assert_eq!((again.release(), again.local()), (long.release(), long.local()));
    assert_eq!((again.cmp(&long), hash(&again)), (Ordering::Equal, hash(&long)));
}

#[test]
fn size_and_threads() {
    fn is_shared<T: Send + Sync + Clone + 'static>() {}
    let _: [fn(); 16] = [
        is_shared::<Version>,
        is_shared::<VersionPattern>,
        is_shared::<VersionSpecifier>,
        is_shared::<VersionSpecifiers>,
        is_shared::<Operator>,
        is_shared::<Prerelease>,
        is_shared::<PrereleaseKind>,
        is_shared::<LocalSegment>,
        is_shared::<Segment>,
        is_shared::<VersionParseError>,
        is_shared::<VersionPatternParseError>,
        is_shared::<OperatorParseError>,
        is_shared::<VersionSpecifierParseError>,
        is_shared::<VersionSpecifierBuildError>,
        is_shared::<VersionSpecifiersParseError>,
        is_shared::<RangeError>,
    ];
    assert_eq!((size_of::<Version>(), size_of::<Option<Version>>()), (32, 32));
    let shared = version("1!2.0+local");
    let tasks: Vec<_> = (0..4)
        .map(|_| {
            let mine = shared.clone();
            std::thread::spawn(move || (hash(&mine), mine.to_string(), mine > version("1!2.0")))
        })
        .collect();
    for task in tasks {
        assert_eq!(task.join().unwrap(), (hash(&shared), "1!2.0+local".to_owned(), true));
    }
}

/// Compiled bytes are no strings, though the library takes them in place of strings.
#[test]
fn compiled_bytes_are_no_strings() {
    let (compiled, list) = ("\u{4}\0\u{2}\u{1}\0P\0\u{10}\0", "\u{5}\u{19}\0\u{2}\u{1}\0P\0\u{10}\0");
    let with_set = "\u{6}\u{1}\u{b}\u{1}\u{8}\0\u{2}\u{1}\0P\0\u{10}\0\0".to_owned() + list;
    let wanted = "expected version to start with a number, but no leading ASCII digits were found";
    assert_eq!(compiled.parse::<Version>().unwrap_err().to_string(), wanted);
    assert_eq!(compiled.parse::<VersionPattern>().unwrap_err().to_string(), wanted);
    let wanted = "Unexpected end of version specifier, expected operator";
    for list in [list, &with_set] {
        assert_eq!(list.parse::<VersionSpecifier>().unwrap_err().to_string(), wanted);
        let error = list.parse::<VersionSpecifiers>().unwrap_err();
        assert!(error.to_string().starts_with(&format!("Failed to parse version: {wanted}:\n{list}\n")), "{error}");
    }
    assert!(">=\u{4}\0\u{2}\u{1}\0P\0\u{10}\0".parse::<VersionSpecifier>().is_err());
}
