//! Tests that call nothing of the library: compiled bytes as `crates/pep440_compiled/specs` defines them; and each public item is documented
//! with an example.
use crate::bytes;
use crate::{LocalSegment, MIN_VERSION, Operator, Prerelease, PrereleaseKind, Version, VersionSpecifier, VersionSpecifiers};
use alloc::borrow::ToOwned;
use alloc::vec;
use alloc::vec::Vec;
use std::fs;
use std::path::Path;

fn compiled(version: &Version) -> Vec<u8> {
    version.with_compiled(<[u8]>::to_vec)
}

fn pre(kind: PrereleaseKind, number: u64) -> Prerelease {
    Prerelease { kind, number }
}

fn string(text: &str) -> LocalSegment {
    LocalSegment::String(text.to_owned())
}

fn parts(version: &Version) -> impl PartialEq + std::fmt::Debug + '_ {
    let sentinels = (Version::min(version), Version::max(version));
    (version.epoch(), version.release(), version.pre(), version.post(), version.dev(), version.local(), sentinels)
}

/// 4, the epoch, the release up to 0, stage, post, dev, the local part up to 0, and the zeros of the release.
#[test]
fn version_bytes() {
    let release = Version::new([1, 2, 3]);
    let cases: [(Version, &[u8]); 16] = [
        (release.clone(), &[4, 0, 2, 1, 2, 2, 2, 3, 0, 80, 0, 16, 0]),
        (Version::new([0]), &[4, 0, 0, 80, 0, 16, 0, 1]),
        (Version::new([1, 0]), &[4, 0, 2, 1, 0, 80, 0, 16, 0, 1]),
        (Version::new([0, 0, 1, 0, 0]), &[4, 0, 1, 1, 2, 1, 0, 80, 0, 16, 0, 1, 1]),
        (
            Version::new([255, 256, u64::MAX]),
            &[4, 0, 2, 255, 3, 1, 0, 9, 255, 255, 255, 255, 255, 255, 255, 255, 0, 80, 0, 16, 0],
        ),
        (release.clone().with_epoch(1), &[4, 1, 1, 2, 1, 2, 2, 2, 3, 0, 80, 0, 16, 0]),
        (release.clone().with_dev(Some(0)), &[4, 0, 2, 1, 2, 2, 2, 3, 0, 16, 0, 0, 0]),
        (release.clone().with_pre(Some(pre(PrereleaseKind::Alpha, 0))), &[4, 0, 2, 1, 2, 2, 2, 3, 0, 32, 0, 16, 0]),
        (release.clone().with_pre(Some(pre(PrereleaseKind::Beta, 1))), &[4, 0, 2, 1, 2, 2, 2, 3, 0, 49, 1, 0, 16, 0]),
        (
            release.clone().with_pre(Some(pre(PrereleaseKind::Rc, 2))).with_dev(Some(3)),
            &[4, 0, 2, 1, 2, 2, 2, 3, 0, 65, 2, 0, 1, 3, 0],
        ),
        (release.clone().with_post(Some(0)), &[4, 0, 2, 1, 2, 2, 2, 3, 0, 80, 16, 16, 0]),
        (release.clone().with_post(Some(4)).with_dev(Some(5)), &[4, 0, 2, 1, 2, 2, 2, 3, 0, 80, 17, 4, 1, 5, 0]),
        (
            Version::new([1]).with_local(vec![string("a"), LocalSegment::Number(7)]),
            &[4, 0, 2, 1, 0, 80, 0, 16, 1, 97, 0, 3, 7, 0],
        ),
        (Version::new([1]).with_local(vec![LocalSegment::Number(0)]), &[4, 0, 2, 1, 0, 80, 0, 16, 2, 0]),
        (Version::new([1]).with_min(Some(0)), &[4, 0, 2, 1, 0, 0, 0, 0, 0]),
        (Version::new([1]).with_max(Some(2)), &[4, 0, 2, 1, 0, 80, 33, 2, 16, 0]),
    ];
    for (version, wanted) in cases {
        assert_eq!(compiled(&version), wanted);
        let again = Version::from_bytes(&wanted[1..]);
        assert_eq!(parts(&again), parts(&version));
        assert_eq!((&again, compiled(&again)), (&version, wanted.to_vec()));
        assert_eq!(version.is_parsed(), Version::min(&version).is_none() && Version::max(&version).is_none());
    }
}

#[test]
fn constants() {
    assert_eq!(compiled(&MIN_VERSION), [4, 0, 0, 32, 0, 0, 0, 1]);
}

/// More bytes than are held without a heap, and as many.
#[test]
fn long_versions() {
    for count in 1..100 {
        let release: Vec<u64> = (0..count).map(|number| number % 3 + 1).collect();
        let zeros: Vec<u64> = std::iter::once(1).chain((0..count).map(|_| 0)).collect();
        for version in
            [Version::new(&release), Version::new(&zeros), Version::new([1]).with_local(vec![string(&"a".repeat(zeros.len()))])]
        {
            let bytes = compiled(&version);
            assert_eq!(&bytes[1..], bytes::version(&version.clone().into_parts()).bytes());
            assert_eq!(parts(&Version::from_bytes(&bytes[1..])), parts(&version));
        }
        assert!(Version::new(&zeros) == Version::new([1]) && Version::new(&release) < Version::new([2]));
    }
}

/// 5, and of each member 16 and the number of its operator and its version.
#[test]
fn list_bytes() {
    let (low, high) = (Version::new([1, 0]), Version::new([1, 0]).with_epoch(1));
    let list: VersionSpecifiers =
        [VersionSpecifier::less_than_version(high.clone()), VersionSpecifier::greater_than_equal_version(low.clone())]
            .into_iter()
            .collect();
    let wanted = [5, 25, 0, 2, 1, 0, 80, 0, 16, 0, 1, 22, 1, 1, 2, 1, 0, 80, 0, 16, 0, 1];
    assert_eq!(bytes::list(&list), wanted);
    assert_eq!(bytes::list(&[]), [5]);
    let one = VersionSpecifier::unchecked(Operator::TildeEqual, low);
    assert_eq!(one.with_list(<[u8]>::to_vec), bytes::list(&[one]));
}

#[test]
fn order_without_a_call() {
    let versions = [[1, 0, 0, 0, 0], [1, 0, 0, 0, 1], [1, 0, 0, 1, 0]].map(Version::new);
    assert!(
        versions.is_sorted()
            && versions[0] == Version::new([1])
            && versions[1] > Version::new([1])
            && Version::new([1, 0, 0, 2]) > versions[2]
    );
    assert!(Version::new([0]).with_epoch(1) > Version::new([65_535]));
}

/// Parts are made once, whichever thread asks first, and given back with the last version that has them.
#[test]
fn threads_share_parts() {
    for _ in 0..100 {
        let version = Version::from_bytes(&[0, 2, 1, 0, 80, 0, 16, 0, 1]);
        std::thread::scope(|scope| {
            for _ in 0..4 {
                scope.spawn(|| assert_eq!((version.release(), version.clone().release()), (&[1, 0][..], &[1, 0][..])));
            }
        });
        assert_eq!(*version.clone().into_parts().release, [1, 0]);
    }
}

const PUBLIC: [&str; 5] = ["pub fn ", "pub struct ", "pub enum ", "pub static ", "pub type "];

/// The public items of a source that have no example, of which there must be more.
fn lacking(source: &str) -> Vec<&str> {
    let (mut found, mut has_example) = (Vec::new(), false);
    for line in source.lines().map(str::trim_start) {
        if line.starts_with("///") {
            has_example |= line == "/// ```";
        } else if !line.starts_with('#') {
            found.extend(PUBLIC.iter().any(|word| line.starts_with(word)).then_some((line, has_example)));
            has_example = false;
        }
    }
    found.into_iter().filter(|(line, has_example)| !has_example && !line.contains('$')).map(|(line, _)| line).collect()
}

#[test]
fn each_item_has_an_example() {
    let sources = fs::read_dir(Path::new(env!("CARGO_MANIFEST_DIR")).join("src")).expect("the sources");
    for path in sources.map(|entry| entry.expect("a source").path()) {
        let source = fs::read_to_string(&path).expect("a source");
        assert_eq!(lacking(&source), [""; 0], "{}", path.display());
    }
    assert_eq!(lacking("pub fn call() {}"), ["pub fn call() {}"]);
}
