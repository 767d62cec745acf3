//! What the features add.
#![cfg(any(feature = "serde", feature = "tracing", feature = "version-ranges"))]

#[cfg(feature = "serde")]
mod serde {
    use pep440_rattle::{Version, VersionSpecifier, VersionSpecifiers};
    use serde::de::value::{BytesDeserializer, Error};
    use serde::{Deserialize, Serialize};
    use serde_json::json;

    fn written<T: Serialize + std::str::FromStr<Err: std::fmt::Debug>>(text: &str) -> String {
        serde_json::to_string(&text.parse::<T>().unwrap()).unwrap()
    }

    #[test]
    fn values_are_strings() {
        assert_eq!(written::<Version>("v1.0-Alpha.2"), "\"1.0a2\"");
        assert_eq!(written::<VersionSpecifier>("== 1.*"), "\"==1.*\"");
        assert_eq!(written::<VersionSpecifiers>("<2.0,>=1.16"), "\">=1.16,<2.0\"");
    }

    /// A string of the input, one with an escape, one that is owned, and the bytes of one.
    #[test]
    fn borrowed_and_owned_strings() {
        let wanted: Version = "1.0a2".parse().unwrap();
        for text in ["\"v1.0-Alpha.2\"", "\"v1.0\\u002dAlpha.2\""] {
            assert_eq!(serde_json::from_str::<Version>(text).unwrap(), wanted);
            assert_eq!(serde_json::from_reader::<_, Version>(text.as_bytes()).unwrap(), wanted);
        }
        assert_eq!(serde_json::from_value::<Version>(json!("1.0a2")).unwrap(), wanted);
        assert_eq!(Version::deserialize(BytesDeserializer::<Error>::new(b"1.0a2")).unwrap(), wanted);
        let error = Version::deserialize(BytesDeserializer::<Error>::new(&[255])).unwrap_err();
        assert_eq!(error.to_string(), "invalid value: byte array, expected a string");
        assert_eq!(serde_json::from_str::<VersionSpecifier>("\"~= 1.4\"").unwrap().to_string(), "~=1.4");
        assert_eq!(serde_json::from_str::<VersionSpecifiers>("\"<2, >1\"").unwrap().to_string(), ">1, <2");
    }

    #[test]
    fn errors_are_those_of_the_parser() {
        let said = |text: &str| serde_json::from_str::<Version>(text).unwrap_err().to_string();
        let wanted = "after parsing `1.0pre`, found `v`, which is not part of a valid version";
        assert_eq!(said("\"1.0prev\""), wanted);
        assert_eq!(said("1.5"), "invalid type: floating point `1.5`, expected a string at line 1 column 3");
        assert!(serde_json::from_str::<VersionSpecifiers>("\"~=2\"").is_err());
    }
}

#[cfg(feature = "version-ranges")]
mod version_ranges {
    use pep440_rattle::{
        Segment, Version, VersionSpecifier, VersionSpecifiers, release_specifier_to_range, release_specifiers_to_ranges,
    };
    use version_ranges::Ranges;

    fn segments(ranges: &Ranges<Version>) -> Vec<Segment> {
        ranges.iter().map(|(start, end)| (start.clone(), end.clone())).collect()
    }

    #[test]
    fn segments_are_those_of_ranges() {
        for text in ["", ">=1.0,<2.0,!=1.5.*,!=1.7,!=1.9", "==1.2.*", "===1.0+local", "~=1.4.5", "<1", ">1.0.post1", "<1,>2"] {
            let list: VersionSpecifiers = text.parse().unwrap();
            assert_eq!(segments(&Ranges::from(list.clone())), list.ranges().unwrap(), "{text}");
            assert_eq!(segments(&release_specifiers_to_ranges(list.clone())), list.release_ranges().unwrap(), "{text}");
            for one in list {
                assert_eq!(segments(&Ranges::from(one.clone())), one.ranges().unwrap(), "{one}");
                assert_eq!(segments(&release_specifier_to_range(one.clone())), one.release_ranges().unwrap(), "{one}");
            }
        }
        assert!(Ranges::from("==1.*".parse::<VersionSpecifier>().unwrap()).contains(&Version::new([1, 9])));
    }

    #[test]
    #[should_panic(expected = "a bound would need a number above 18446744073709551615")]
    fn a_range_without_an_end_panics() {
        let _ = Ranges::from("==18446744073709551615.*".parse::<VersionSpecifier>().unwrap());
    }
}

#[cfg(feature = "tracing")]
mod tracing {
    use pep440_rattle::{Operator, Version, VersionSpecifier, VersionSpecifiers};
    use std::ops::Bound;
    use std::sync::Arc;
    use std::sync::atomic::{AtomicUsize, Ordering};
    use tracing::span::{Attributes, Id, Record};
    use tracing::{Event, Level, Metadata, Subscriber};

    struct Warnings(Arc<AtomicUsize>);

    impl Subscriber for Warnings {
        fn enabled(&self, metadata: &Metadata<'_>) -> bool {
            *metadata.level() == Level::WARN
        }

        fn new_span(&self, _: &Attributes<'_>) -> Id {
            Id::from_u64(1)
        }

        fn record(&self, _: &Id, _: &Record<'_>) {}

        fn record_follows_from(&self, _: &Id, _: &Id) {}

        fn event(&self, _: &Event<'_>) {
            self.0.fetch_add(1, Ordering::Relaxed);
        }

        fn enter(&self, _: &Id) {}

        fn exit(&self, _: &Id) {}
    }

    fn warnings(call: impl FnOnce()) -> usize {
        let count = Arc::new(AtomicUsize::new(0));
        tracing::subscriber::with_default(Warnings(count.clone()), call);
        count.load(Ordering::Relaxed)
    }

    #[test]
    fn exact_equality_is_discouraged() {
        let version = Version::new([1, 0]);
        let (one, list): (VersionSpecifier, VersionSpecifiers) = ("===1.0".parse().unwrap(), ">=1,===1.0".parse().unwrap());
        assert_eq!(warnings(|| assert_eq!("===".parse(), Ok(Operator::ExactEqual))), 1);
        assert_eq!(warnings(|| assert_eq!("===1.0".parse(), Ok(one.clone()))), 1);
        assert_eq!(warnings(|| assert_eq!(">=1,===1.0".parse(), Ok(list.clone()))), 1);
        assert_eq!(warnings(|| assert!(one.contains(&version))), 1);
        assert_eq!(warnings(|| assert!(list.contains(&version))), 1);
        assert_eq!(warnings(|| assert!(">=1.0,<2".parse::<VersionSpecifiers>().unwrap().contains(&version))), 0);
    }

    #[test]
    fn gaps_that_are_left_out() {
        let bound = |number| Bound::Excluded(Version::new([number]));
        let segments = [(Bound::Unbounded, bound(1)), (bound(2), Bound::Unbounded)];
        let made = || drop(VersionSpecifiers::from_release_only_bounds(segments.iter().map(|(low, high)| (low, high))));
        assert_eq!(warnings(made), 1);
    }
}
