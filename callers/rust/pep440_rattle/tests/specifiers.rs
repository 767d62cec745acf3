//! Specifiers and lists: PEP 440, "Version specifiers", and what this crate says of its calls.
use pep440_rattle::{
    LocalSegment, Operator, RangeError, Version, VersionPattern, VersionPatternParseError, VersionSpecifier, VersionSpecifiers,
};
use std::ops::Bound;

fn version(text: &str) -> Version {
    text.parse().unwrap_or_else(|error| panic!("{text}: {error}"))
}

fn specifier(text: &str) -> VersionSpecifier {
    text.parse().unwrap_or_else(|error| panic!("{text}: {error}"))
}

fn list(text: &str) -> VersionSpecifiers {
    text.parse().unwrap_or_else(|error| panic!("{text}: {error}"))
}

#[test]
fn matching() {
    let cases = [
        ("~=2.2", "2.3 2.2.post3 2.2", "3.0 2.1"),
        ("~=1.4.5", "1.4.5 1.4.9", "1.5.0 1.4.4"),
        ("==1.1", "1.1 1.1.0 1.1+local", "1.1.post1 1.1a1"),
        ("==1.1.*", "1.1.post1 1.1a1 1.1", "1.2 1"),
        ("!=1.1.*", "1.2 1", "1.1.post1 1.1"),
        ("!=1.1.post1", "1.1", "1.1.post1"),
        (">1.7", "1.7.1", "1.7 1.7.0.post1 1.7+local"),
        (">1.7.post2", "1.7.1 1.7.0.post3", "1.7.0"),
        ("<1.0", "0.9", "1.0 1.0a1 1.0.dev1"),
        ("<1.0b2", "1.0a1", "1.0b2"),
        ("<1!1.0", "1.0a1", "1!1.0a1"),
        ("===1.0+local", "1.0+local", "1.0"),
        (">=1.0, !=1.5.*, <2.0", "1.0 1.6", "1.5.1 2.0 0.9"),
        (">=1!2.0", "1!2.0+local 2!0", "3.0"),
        ("", "0 1!0.dev1+local", ""),
    ];
    for (text, inside, outside) in cases {
        for (versions, wanted) in [(inside, true), (outside, false)] {
            for each in versions.split_whitespace().map(version) {
                assert_eq!(list(text).contains(&each), wanted, "{text} {each}");
                assert_eq!(list(text).iter().all(|member| member.contains(&each)), wanted, "{text} {each}");
            }
        }
    }
}

#[test]
fn lists() {
    let parsed = list("<2.0 , >=1.16,!= 1.17.*");
    assert_eq!(parsed.to_string(), ">=1.16, !=1.17.*, <2.0");
    assert_eq!((parsed.len(), parsed.is_empty()), (3, false));
    assert_eq!((*parsed[1].operator(), parsed[1].version().to_string()), (Operator::NotEqualStar, "1.17".to_owned()));
    let collected: VersionSpecifiers = parsed.iter().rev().cloned().collect();
    assert_eq!((&collected, collected.to_string()), (&parsed, parsed.to_string()));
    assert_eq!(VersionSpecifiers::from(specifier("==1!2.0+a.1")).to_string(), "==1!2.0+a.1");
    assert_eq!(VersionSpecifiers::empty(), VersionSpecifiers::default());
    assert_eq!(VersionSpecifiers::empty().to_string(), "");
    assert_eq!(parsed.into_iter().count(), 3);
    assert_eq!(list("==1.0"), list("==1.0.0"));
    assert_eq!(format!("{:?}", list("==1.0")), "VersionSpecifiers([VersionSpecifier { operator: Equal, version: \"1.0\" }])");
}

#[test]
fn errors_of_lists() {
    let error = ">=1.0, ~=2".parse::<VersionSpecifiers>().unwrap_err();
    assert_eq!(error.line(), ">=1.0, ~=2");
    let wanted = "Failed to parse version: The ~= operator requires at least two segments in the release version:\n>=1.0, ~=2\n      ^^^^\n";
    assert_eq!(error.to_string(), wanted);
}

#[test]
fn errors_of_specifiers() {
    let pairs = [
        ("", "Unexpected end of version specifier, expected operator"),
        ("1.0", "Unexpected end of version specifier, expected operator"),
        (">=", "Unexpected end of version specifier, expected version"),
        ("=>1.0", "no such comparison operator \"=>\", must be one of ~= == != <= >= < > ==="),
        ("==1.0 ^", "Trailing `^` is not allowed"),
        (">=1.0 ,<2", "Trailing `,<2` is not allowed"),
        (">=1.0,<2", "after parsing `1.0`, found `,<2`, which is not part of a valid version"),
        (",", "Unexpected end of version specifier, expected operator"),
        (">=1.*", "Operator >= cannot be used with a wildcard version specifier"),
        (">=1+l.2", "Operator >= is incompatible with versions containing non-empty local segments (`+l.2`)"),
    ];
    for (text, wanted) in pairs {
        assert_eq!(text.parse::<VersionSpecifier>().unwrap_err().to_string(), wanted, "{text}");
    }
    let private: String = ('\u{e000}'..='\u{f8ff}').collect();
    let wanted = format!("after parsing `1`, found `,{private}`, which is not part of a valid version");
    assert_eq!(format!("==1,{private}").parse::<VersionSpecifier>().unwrap_err().to_string(), wanted);
}

#[test]
fn patterns() {
    let star: VersionPattern = " v1.2.*".parse().unwrap();
    assert_eq!((star.is_wildcard(), star.version().to_string()), (true, "1.2".to_owned()));
    assert_eq!(star, VersionPattern::wildcard(version("1.2")));
    let verbatim: VersionPattern = "1.2a1".parse().unwrap();
    assert_eq!((verbatim.is_wildcard(), verbatim.into_version()), (false, version("1.2a1")));
    let error = |text: &str| text.parse::<VersionPattern>().unwrap_err().to_string();
    for text in ["1.*.2", "1.*.*", "1.* "] {
        assert_eq!(error(text), "wildcards in versions must be at the end", "{text}");
    }
    assert_eq!("1.0x".parse::<Version>().map_err(VersionPatternParseError::from).unwrap_err().to_string(), error("1.0x"));
    assert_eq!(error("1.0a1.*"), "after parsing `1.0a1`, found `.*`, which is not part of a valid version");
}

#[test]
fn checked_and_unchecked() {
    let made = |operator, text: &str| VersionSpecifier::from_version(operator, version(text));
    assert_eq!(made(Operator::TildeEqual, "1.2").unwrap().to_string(), "~=1.2");
    assert!(made(Operator::TildeEqual, "1").is_err() && made(Operator::LessThan, "1+a").is_err());
    let star = VersionSpecifier::from_pattern(Operator::Equal, VersionPattern::wildcard(version("1.2"))).unwrap();
    assert_eq!(star, specifier("==1.2.*"));
    assert_eq!(star.into_parts(), (Operator::EqualStar, version("1.2")));
    let odd = VersionSpecifier::greater_than_equal_version(version("1.0+local"));
    assert_eq!(odd.to_string(), ">=1.0+local");
    assert!(odd.contains(&version("1.0+local.1")) && !odd.contains(&version("1.0")));
    let above = |version| Ok(vec![(Bound::Included(version), Bound::Unbounded)]);
    assert_eq!(odd.ranges(), above(version("1.0+local")));
    for odd in [version("1.0").with_min(Some(0)), version("1.0").with_max(Some(0))] {
        let odd = VersionSpecifier::greater_than_equal_version(odd);
        assert_eq!((odd.to_string(), odd.ranges()), (">=1.0".to_owned(), Err(RangeError::NotParsed)));
        assert_eq!(odd.release_ranges(), Err(RangeError::NotParsed));
        assert_eq!(VersionSpecifiers::from(odd).ranges(), Err(RangeError::NotParsed));
    }
    let upper = version("1.0").with_local(vec![LocalSegment::String("A".to_owned())]);
    assert_eq!(
        VersionSpecifier::from_version(Operator::LessThan, upper.clone()).unwrap_err().to_string(),
        "Operator < is incompatible with versions containing non-empty local segments (`+A`)"
    );
    assert_eq!(VersionSpecifier::equals_version(upper).to_string(), "==1.0+A");
    assert!(specifier(">1.0rc1").any_prerelease() && !specifier(">1.0").any_prerelease());
    assert!(specifier("==1.0").has_lower_bound() && !specifier("!=1.0").has_lower_bound());
}

#[test]
fn operators() {
    for (symbol, operator) in
        [("==", Operator::Equal), ("===", Operator::ExactEqual), ("~=", Operator::TildeEqual), ("<", Operator::LessThan)]
    {
        assert_eq!((symbol.parse(), operator.to_string()), (Ok(operator), symbol.to_owned()));
    }
    assert_eq!((Operator::ExactEqual.negate(), Operator::TildeEqual.negate()), (Some(Operator::NotEqual), None));
    assert!(Operator::EqualStar.is_star() && !Operator::Equal.is_star());
    for text in ["=", "", " ==", "==1", "==.*", "==\0", "é"] {
        let wanted = format!("no such comparison operator {text:?}, must be one of ~= == != <= >= < > ===");
        assert_eq!(text.parse::<Operator>().unwrap_err().to_string(), wanted);
    }
}

/// Each string of one to three operator characters is an operator, or none with the same error, as in front of a version.
#[test]
fn operators_are_those_of_specifiers() {
    use Operator::{Equal, ExactEqual, GreaterThan, GreaterThanEqual, LessThan, LessThanEqual, NotEqual, TildeEqual};
    let more = |strings: &[String]| -> Vec<String> {
        strings.iter().flat_map(|string| ["<", ">", "=", "!", "~"].map(|letter| format!("{string}{letter}"))).collect()
    };
    let one = more(&[String::new()]);
    let (two, three) = (more(&one), more(&more(&one)));
    let mut found = Vec::new();
    for symbol in [one, two, three].concat() {
        match (symbol.parse::<Operator>(), format!("{symbol}1.0").parse::<VersionSpecifier>()) {
            (Ok(operator), Ok(before)) => {
                assert_eq!((operator.to_string(), operator), (symbol, *before.operator()));
                found.push(operator);
            }
            (Err(alone), Err(before)) => assert_eq!(alone.to_string(), before.to_string()),
            (alone, before) => panic!("{symbol}: {alone:?} {before:?}"),
        }
    }
    found.sort();
    assert_eq!(found, [Equal, ExactEqual, NotEqual, TildeEqual, LessThan, LessThanEqual, GreaterThan, GreaterThanEqual]);
    for (operator, wildcard) in found.into_iter().map(|each| (each, "")).chain([(Equal, ".*"), (NotEqual, ".*")]) {
        let text = format!("{operator}1.0{wildcard}");
        let made = specifier(&text);
        assert_eq!((made.to_string(), made.operator().to_string()), (text, operator.to_string()));
        assert_eq!(made.operator().is_star(), !wildcard.is_empty());
    }
}

#[test]
fn ranges() {
    let found = list(">=1.0,!=1.5,<2.0").ranges().unwrap();
    let end = version("2.0").with_min(Some(0));
    let wanted = vec![
        (Bound::Included(version("1.0")), Bound::Excluded(version("1.5"))),
        (Bound::Excluded(version("1.5")), Bound::Excluded(end)),
    ];
    assert_eq!(found, wanted);
    assert_eq!(found[1].1.as_ref().map(Version::min), Bound::Excluded(Some(0)));
    assert_eq!(specifier(">1!2.0").ranges().unwrap(), [(Bound::Excluded(version("1!2.0").with_max(Some(0))), Bound::Unbounded)]);
    assert_eq!(list("").ranges().unwrap(), [(Bound::Unbounded, Bound::Unbounded)]);
    assert_eq!(list(">1,<1").ranges().unwrap(), []);
    assert_eq!(list("==18446744073709551615.*").ranges(), Err(RangeError::NumberAtMax));
}

#[test]
fn release_only_ranges() {
    let of = |text: &str| (list(text).release_ranges().unwrap(), specifier(text).release_ranges().unwrap());
    let above = vec![(Bound::Excluded(version("1.0")), Bound::Unbounded)];
    assert_eq!(of(">1!1.0rc1.post2.dev3"), (above.clone(), above));
    let compatible = vec![(Bound::Included(version("1.4.5")), Bound::Excluded(version("1.5")))];
    assert_eq!(of("~=1.4.5a4"), (compatible.clone(), compatible));
    let local = vec![(Bound::Included(version("1.0")), Bound::Included(version("1.0")))];
    assert_eq!(of("===1.0+local"), (local.clone(), local));
    let outside = vec![
        (Bound::Unbounded, Bound::Excluded(version("1.2.3.4.5"))),
        (Bound::Included(version("1.2.3.4.6")), Bound::Unbounded),
    ];
    assert_eq!(of("!=1.2.3.4.5.*"), (outside.clone(), outside));
    assert_eq!(list("").release_ranges(), Ok(vec![(Bound::Unbounded, Bound::Unbounded)]));
    assert_eq!(list(">1,<1").release_ranges(), Ok(vec![]));
    let two = vec![
        (Bound::Included(version("3.7")), Bound::Excluded(version("3.8"))),
        (Bound::Included(version("3.9")), Bound::Excluded(version("4"))),
    ];
    assert_eq!(list(">=3.7a1, !=3.8.*, <4").release_ranges(), Ok(two));
    let above_all = "~=18446744073709551615.0";
    assert_eq!(list(above_all).release_ranges(), Err(RangeError::NumberAtMax));
    assert_eq!(specifier(above_all).release_ranges(), Err(RangeError::NumberAtMax));
}

#[test]
fn from_bounds() {
    use Bound::{Excluded, Included, Unbounded};
    let from = |low: Bound<&str>, high: Bound<&str>| (low.map(version), high.map(version));
    let shown = |pairs: &[(Bound<Version>, Bound<Version>)]| {
        VersionSpecifiers::from_release_only_bounds(pairs.iter().map(|(low, high)| (low, high))).to_string()
    };
    assert_eq!(shown(&[]), "");
    assert_eq!(shown(&[from(Included("3.7"), Excluded("3.8"))]), "==3.7.*");
    assert_eq!(shown(&[from(Included("3.7"), Included("3.7"))]), "==3.7");
    assert_eq!(shown(&[from(Excluded("3.7"), Unbounded)]), ">3.7");
    assert_eq!(shown(&[from(Included("3.7"), Excluded("3.8")), from(Included("3.9"), Unbounded)]), ">=3.7, !=3.8.*");
    assert_eq!(shown(&[from(Unbounded, Excluded("3.8.1")), from(Excluded("3.8.1"), Included("4"))]), "!=3.8.1, <=4");
}
