//! Versions.
use crate::bytes::{self, Writer};
use crate::calls::{self, Invalid};
use crate::key::{Key, Sections, count_zeros};
use crate::lazy::Lazy;
use crate::parts::{Parts, Release, Suffix};
use crate::{LocalSegment, Prerelease, VersionParseError};
use alloc::boxed::Box;
use alloc::sync::Arc;
use alloc::vec::Vec;
use core::borrow::Borrow;
use core::cmp::Ordering;
use core::fmt;
use core::hash::{Hash, Hasher};
use core::ops::Deref;
use core::str::FromStr;

/// A version, as `1.2.3` or `4!5.6.7a8.post9.dev0+local.1`.
///
/// `==` and `<` are the order of versions (PEP 440, "Summary of permitted suffixes and relative ordering"); the operators of
/// a [`VersionSpecifier`](crate::VersionSpecifier) match otherwise: `==1.0` contains `1.0+local`, which is above `1.0`.
///
/// A version is its sort key, which takes no heap up to 22 bytes, as of `2024.10.20240101` or `1.0rc1.post2.dev3+cu118`. Release and local
/// part take one when they are first asked for.
///
/// ```
/// use pep440_rattle::Version;
///
/// let versions = ["1.0.dev1", "1.0a1", "1.0", "1.0+local", "1.0.post1"].map(|text| text.parse::<Version>().unwrap());
/// assert!(versions.is_sorted());
/// assert_eq!("1.0".parse::<Version>(), "v1.0.0".parse());
/// ```
#[derive(Clone)]
pub struct Version {
    key: Key,
    rest: Lazy<Rest>,
}

/// What a version has beside its key: from the beginning on where that does not tell the version, as it is too long, has a local segment
/// that no string has, or a sentinel that hides a part; else when it is asked for.
#[derive(Clone)]
struct Rest {
    /// The bytes of a version that its key does not tell; else none.
    bytes: Box<[u8]>,
    parts: Parts,
}

/// The type of [`MIN_VERSION`].
///
/// ```
/// use pep440_rattle::{MIN_VERSION, MinVersion, Version};
///
/// let least: &MinVersion = &MIN_VERSION;
/// assert!(**least < Version::new([0]));
/// ```
pub struct MinVersion(Version);

/// `0a0.dev0`. Only developmental releases of `0` are below it.
///
/// ```
/// use pep440_rattle::MIN_VERSION;
///
/// assert_eq!(MIN_VERSION.to_string(), "0a0.dev0");
/// ```
pub static MIN_VERSION: MinVersion = MinVersion(Version { key: Key::MIN, rest: Lazy::new() });

impl Deref for MinVersion {
    type Target = Version;

    fn deref(&self) -> &Version {
        &self.0
    }
}

impl Version {
    /// A release of these numbers.
    ///
    /// ```
    /// use pep440_rattle::Version;
    ///
    /// assert_eq!(Version::new([1, 19]).to_string(), "1.19");
    /// ```
    ///
    /// # Panics
    ///
    /// Where there is no number.
    pub fn new<I, R>(release_numbers: I) -> Version
    where
        I: IntoIterator<Item = R>,
        R: Borrow<u64>,
    {
        let mut writer = Writer::from_epoch(0);
        writer.push_release(release_numbers);
        writer.push_final();
        Version::from_writer(&writer)
    }

    pub(crate) fn from_parts(parts: Parts) -> Version {
        let writer = bytes::version(&parts);
        let is_told = !parts.suffix.is_hidden() && parts.is_local_normal();
        match writer.key().filter(|_| is_told) {
            Some(key) => Version::from_key(key),
            None => Version::from_rest(&writer.bytes(), parts),
        }
    }

    #[inline]
    fn from_key(key: Key) -> Version {
        Version { key, rest: Lazy::new() }
    }

    #[cold]
    fn from_rest(bytes: &[u8], parts: Parts) -> Version {
        Version { key: Key::untold(bytes), rest: Lazy::from(Rest { bytes: bytes.into(), parts }) }
    }

    /// The version of these bytes, in which no sentinel hides a part.
    #[inline]
    pub(crate) fn from_bytes(bytes: &[u8]) -> Version {
        Key::from_bytes(bytes).map_or_else(|| Version::from_rest(bytes, bytes::read_parts(bytes)), Version::from_key)
    }

    /// The version of the bytes that are written.
    #[inline]
    fn from_writer(writer: &Writer) -> Version {
        writer.key().map_or_else(|| Version::from_bytes(&writer.bytes()), Version::from_key)
    }

    /// The version of the string; the error does not say why there is none.
    #[inline]
    pub(crate) fn parse(version: &str) -> Result<Version, Invalid> {
        calls::compile(version, |room, length| {
            let first = *room[1..].first_chunk().expect("room for the first bytes");
            Key::from_room(first, length - 1).map_or_else(|| Version::from_bytes(&room[1..length]), Version::from_key)
        })
    }

    fn rest(&self) -> &Rest {
        self.rest.get_or_init(|| Rest { bytes: Box::default(), parts: self.with_bytes(bytes::read_parts) })
    }

    fn parts(&self) -> &Parts {
        &self.rest().parts
    }

    pub(crate) fn into_parts(mut self) -> Parts {
        let rest = self.rest.take();
        rest.map_or_else(|| self.with_bytes(bytes::read_parts), |rest| Arc::unwrap_or_clone(rest).parts)
    }

    /// The sections of the key, where it tells the version.
    #[inline]
    fn sections(&self) -> Option<Sections> {
        self.key.is_told().then(|| self.key.sections())
    }

    #[inline]
    fn suffix(&self) -> Suffix {
        if self.key.is_final() { Suffix::NONE } else { self.read_suffix() }
    }

    #[inline(never)]
    fn read_suffix(&self) -> Suffix {
        self.sections().map_or_else(|| self.parts().suffix, |sections| sections.suffix())
    }

    /// Whether the release has more than one number.
    pub(crate) fn has_two_numbers(&self) -> bool {
        self.sections().map_or_else(|| self.release().len() > 1, |sections| sections.has_two_numbers())
    }

    /// Whether a string parses to the version.
    pub(crate) fn is_parsed(&self) -> bool {
        self.key.is_final() || if self.key.is_told() { !self.suffix().has_sentinel() } else { self.parts().is_parsed() }
    }

    /// The version without what no string has.
    pub(crate) fn to_parsed(&self) -> Version {
        Version::from_parts(self.parts().to_parsed())
    }

    #[cold]
    fn changed(self, change: impl FnOnce(&mut Parts)) -> Version {
        let mut parts = self.into_parts();
        change(&mut parts);
        Version::from_parts(parts)
    }

    #[inline]
    fn with_suffix(self, suffix: Suffix) -> Version {
        let Some(sections) = self.sections().filter(|_| !suffix.is_hidden()) else {
            return self.changed(|parts| parts.suffix = suffix);
        };
        let mut writer = Writer::after_release(&sections);
        writer.push_suffix(&suffix);
        writer.push_end_of(&sections, sections.suffix_end());
        Version::from_writer(&writer)
    }

    /// Calls `read` with `start` and then the bytes of the version.
    #[inline]
    pub(crate) fn with_start<T>(&self, start: [u8; 2], read: impl FnOnce(&[u8]) -> T) -> T {
        if self.key.is_told() { self.key.with_bytes(start, read) } else { self.with_long_bytes(start, read) }
    }

    #[cold]
    #[inline(never)]
    fn with_long_bytes<T>(&self, start: [u8; 2], read: impl FnOnce(&[u8]) -> T) -> T {
        read(&[&start, &*self.rest().bytes].concat())
    }

    /// Calls `read` with the bytes of the version: its key, and a byte 1 for each zero that ends its release.
    pub(crate) fn with_bytes<T>(&self, read: impl FnOnce(&[u8]) -> T) -> T {
        self.with_start([0; 2], |bytes| read(&bytes[2..]))
    }

    /// Calls `read` with the compiled bytes.
    #[inline]
    pub(crate) fn with_compiled<T>(&self, read: impl FnOnce(&[u8]) -> T) -> T {
        self.with_start([0, bytes::VERSION], |bytes| read(&bytes[1..]))
    }

    /// The order of versions whose keys begin with the same word.
    #[inline]
    fn cmp_equal_starts(&self, other: &Version) -> Ordering {
        let ((_, second, third), (_, other_second, other_third)) = (self.key.words(), other.key.words());
        let order = (second, third).cmp(&(other_second, other_third));
        if order.is_ne() || self.key.is_short() { order } else { self.long_key().cmp(other.long_key()) }
    }

    /// All bytes of a key that is not short.
    #[cold]
    #[inline(never)]
    fn long_key(&self) -> &[u8] {
        let bytes = &self.rest().bytes;
        &bytes[..bytes.len() - count_zeros(bytes)]
    }

    /// Whether the compiled list contains the version.
    #[inline]
    pub(crate) fn is_in(&self, list: &[u8]) -> bool {
        self.with_compiled(|version| calls::contains(list, version))
    }

    /// Whether there is a pre-release or a developmental part.
    ///
    /// ```
    /// use pep440_rattle::Version;
    ///
    /// assert!("1.0.dev1".parse::<Version>().unwrap().any_prerelease());
    /// ```
    #[inline]
    pub fn any_prerelease(&self) -> bool {
        !self.key.is_final() && if self.key.is_told() { self.key.is_early() } else { self.parts().suffix.is_early() }
    }

    /// Whether there is neither a pre-release nor a developmental part.
    ///
    /// ```
    /// use pep440_rattle::Version;
    ///
    /// assert!("1.0.post1".parse::<Version>().unwrap().is_stable());
    /// ```
    #[inline]
    pub fn is_stable(&self) -> bool {
        !self.any_prerelease()
    }

    /// Whether there is a pre-release part.
    ///
    /// ```
    /// use pep440_rattle::Version;
    ///
    /// assert!("1.0rc1".parse::<Version>().unwrap().is_pre());
    /// ```
    #[inline]
    pub fn is_pre(&self) -> bool {
        !self.key.is_final() && self.suffix().pre.is_some()
    }

    /// Whether there is a developmental part.
    ///
    /// ```
    /// use pep440_rattle::Version;
    ///
    /// assert!("1.0.dev1".parse::<Version>().unwrap().is_dev());
    /// ```
    #[inline]
    pub fn is_dev(&self) -> bool {
        !self.key.is_final() && self.suffix().dev.is_some()
    }

    /// Whether there is a post-release part.
    ///
    /// ```
    /// use pep440_rattle::Version;
    ///
    /// assert!("1.0.post1".parse::<Version>().unwrap().is_post());
    /// ```
    #[inline]
    pub fn is_post(&self) -> bool {
        !self.key.is_final() && self.suffix().post.is_some()
    }

    /// Whether there is a local part.
    ///
    /// ```
    /// use pep440_rattle::Version;
    ///
    /// assert!("1.0+cu118".parse::<Version>().unwrap().is_local());
    /// ```
    #[inline]
    pub fn is_local(&self) -> bool {
        if self.key.is_final() {
            return false;
        }
        self.sections().map_or_else(|| !self.parts().local.is_empty(), |sections| sections.has_local())
    }

    /// The epoch, 0 where none is written.
    ///
    /// ```
    /// use pep440_rattle::Version;
    ///
    /// assert_eq!("1!2.0".parse::<Version>().unwrap().epoch(), 1);
    /// ```
    #[inline]
    pub fn epoch(&self) -> u64 {
        if self.key.has_epoch() { self.parts().epoch } else { 0 }
    }

    /// The release numbers; there is at least one.
    ///
    /// ```
    /// use pep440_rattle::Version;
    ///
    /// assert_eq!("1.19.0".parse::<Version>().unwrap().release(), [1, 19, 0]);
    /// ```
    #[inline]
    pub fn release(&self) -> &[u64] {
        &self.parts().release
    }

    /// The pre-release part.
    ///
    /// ```
    /// use pep440_rattle::{PrereleaseKind, Version};
    ///
    /// assert_eq!("1.0rc2".parse::<Version>().unwrap().pre().unwrap().kind, PrereleaseKind::Rc);
    /// ```
    #[inline]
    pub fn pre(&self) -> Option<Prerelease> {
        self.suffix().pre
    }

    /// The number of the post-release.
    ///
    /// ```
    /// use pep440_rattle::Version;
    ///
    /// assert_eq!("1.0-3".parse::<Version>().unwrap().post(), Some(3));
    /// ```
    #[inline]
    pub fn post(&self) -> Option<u64> {
        self.suffix().post
    }

    /// The number of the developmental release.
    ///
    /// ```
    /// use pep440_rattle::Version;
    ///
    /// assert_eq!("1.0.dev4".parse::<Version>().unwrap().dev(), Some(4));
    /// ```
    #[inline]
    pub fn dev(&self) -> Option<u64> {
        self.suffix().dev
    }

    /// The segments of the local part.
    ///
    /// ```
    /// use pep440_rattle::{LocalSegment, Version};
    ///
    /// assert_eq!("1.0+5".parse::<Version>().unwrap().local(), [LocalSegment::Number(5)]);
    /// ```
    #[inline]
    pub fn local(&self) -> &[LocalSegment] {
        if self.key.is_final() { &[] } else { &self.parts().local }
    }

    /// The number of the sentinel `min`, which no string has: it is below each version of its release.
    ///
    /// ```
    /// use pep440_rattle::Version;
    ///
    /// assert_eq!(Version::min(&Version::new([1]).with_min(Some(0))), Some(0));
    /// ```
    #[inline]
    pub fn min(&self) -> Option<u64> {
        self.suffix().min
    }

    /// The number of the sentinel `max`, which no string has: it is above each post-release and local version of its version.
    ///
    /// ```
    /// use pep440_rattle::Version;
    ///
    /// assert_eq!(Version::max(&Version::new([1]).with_max(Some(0))), Some(0));
    /// ```
    #[inline]
    pub fn max(&self) -> Option<u64> {
        self.suffix().max
    }

    /// The version with these release numbers.
    ///
    /// ```
    /// use pep440_rattle::Version;
    ///
    /// assert_eq!("1.0rc1".parse::<Version>().unwrap().with_release([2, 5]).to_string(), "2.5rc1");
    /// ```
    ///
    /// # Panics
    ///
    /// Where there is no number.
    #[must_use]
    pub fn with_release<I, R>(self, release_numbers: I) -> Version
    where
        I: IntoIterator<Item = R>,
        R: Borrow<u64>,
    {
        let Some(sections) = self.sections() else {
            let release: Release = release_numbers.into_iter().map(|number| *number.borrow()).collect();
            assert!(!release.is_empty(), "release must have non-zero size");
            return self.changed(|parts| parts.release = release);
        };
        let mut writer = Writer::after_epoch(&sections);
        writer.push_release(release_numbers);
        writer.push_end_of(&sections, sections.release_end);
        Version::from_writer(&writer)
    }

    /// The version with this epoch.
    ///
    /// ```
    /// use pep440_rattle::Version;
    ///
    /// assert_eq!(Version::new([2]).with_epoch(1).to_string(), "1!2");
    /// ```
    #[must_use]
    pub fn with_epoch(self, value: u64) -> Version {
        let Some(sections) = self.sections() else {
            return self.changed(|parts| parts.epoch = value);
        };
        let mut writer = Writer::from_epoch(value);
        writer.push_release_of(&sections);
        writer.push_end_of(&sections, sections.release_end);
        Version::from_writer(&writer)
    }

    /// The version with this pre-release part, or without one.
    ///
    /// ```
    /// use pep440_rattle::{Prerelease, PrereleaseKind, Version};
    ///
    /// let pre = Prerelease { kind: PrereleaseKind::Beta, number: 2 };
    /// assert_eq!(Version::new([1, 0]).with_pre(Some(pre)).to_string(), "1.0b2");
    /// ```
    #[must_use]
    pub fn with_pre(self, value: Option<Prerelease>) -> Version {
        let suffix = Suffix { pre: value, ..self.suffix() };
        self.with_suffix(suffix)
    }

    /// The version with this post-release, or without one.
    ///
    /// ```
    /// use pep440_rattle::Version;
    ///
    /// assert_eq!(Version::new([1, 0]).with_post(Some(3)).to_string(), "1.0.post3");
    /// ```
    #[must_use]
    pub fn with_post(self, value: Option<u64>) -> Version {
        let suffix = Suffix { post: value, ..self.suffix() };
        self.with_suffix(suffix)
    }

    /// The version with this developmental part, or without one.
    ///
    /// ```
    /// use pep440_rattle::Version;
    ///
    /// assert_eq!(Version::new([1, 0]).with_dev(Some(4)).to_string(), "1.0.dev4");
    /// ```
    #[must_use]
    pub fn with_dev(self, value: Option<u64>) -> Version {
        let suffix = Suffix { dev: value, ..self.suffix() };
        self.with_suffix(suffix)
    }

    /// The version with these local segments. Their strings are kept as they are.
    ///
    /// ```
    /// use pep440_rattle::{LocalSegment, Version};
    ///
    /// assert_eq!(Version::new([1, 0]).with_local(vec![LocalSegment::Number(5)]).to_string(), "1.0+5");
    /// ```
    #[must_use]
    pub fn with_local(self, value: Vec<LocalSegment>) -> Version {
        let Some(sections) = self.sections().filter(|_| value.iter().all(LocalSegment::is_normal)) else {
            return self.changed(|parts| parts.local = value);
        };
        let mut writer = Writer::after_release(&sections);
        writer.push_suffix(&sections.suffix());
        writer.push_local(&value);
        Version::from_writer(&writer)
    }

    /// The version without its local part.
    ///
    /// ```
    /// use pep440_rattle::Version;
    ///
    /// assert_eq!("1.0+cu118".parse::<Version>().unwrap().without_local().to_string(), "1.0");
    /// ```
    #[must_use]
    pub fn without_local(self) -> Version {
        if self.is_local() { self.with_local(Vec::new()) } else { self }
    }

    /// The release numbers alone, without an epoch.
    ///
    /// ```
    /// use pep440_rattle::Version;
    ///
    /// assert_eq!("1!2.0rc1".parse::<Version>().unwrap().only_release().to_string(), "2.0");
    /// ```
    #[must_use]
    pub fn only_release(&self) -> Version {
        let Some(sections) = self.sections() else {
            return Version::new(self.release());
        };
        let mut writer = Writer::from_epoch(0);
        writer.push_release_of(&sections);
        writer.push_final();
        Version::from_writer(&writer)
    }

    /// The version with the sentinel `min`, or without it.
    ///
    /// ```
    /// use pep440_rattle::Version;
    ///
    /// assert!(Version::new([1]).with_min(Some(0)) < "1.dev0".parse().unwrap());
    /// ```
    ///
    /// # Panics
    ///
    /// Where the version has a pre-release or a developmental part.
    #[must_use]
    pub fn with_min(self, value: Option<u64>) -> Version {
        let suffix = self.suffix();
        assert!(suffix.pre.is_none(), "min is not allowed on pre-release versions");
        assert!(suffix.dev.is_none(), "min is not allowed on dev versions");
        self.with_suffix(Suffix { min: value, ..suffix })
    }

    /// The version with the sentinel `max`, or without it.
    ///
    /// ```
    /// use pep440_rattle::Version;
    ///
    /// assert!(Version::new([1]).with_max(Some(0)) > "1.post9".parse().unwrap());
    /// ```
    ///
    /// # Panics
    ///
    /// Where the version has a post-release or a developmental part.
    #[must_use]
    pub fn with_max(self, value: Option<u64>) -> Version {
        let suffix = self.suffix();
        assert!(suffix.post.is_none(), "max is not allowed on post-release versions");
        assert!(suffix.dev.is_none(), "max is not allowed on dev versions");
        self.with_suffix(Suffix { max: value, ..suffix })
    }
}

impl FromStr for Version {
    type Err = VersionParseError;

    /// Parses a version, as `1.19`, `1.0a1`, `1.0+abc.5` or `1!2012.2`; a wildcard is an error.
    #[inline]
    fn from_str(version: &str) -> Result<Version, VersionParseError> {
        Version::parse(version).map_err(|_| VersionParseError::new(version))
    }
}

impl fmt::Display for Version {
    /// Writes the normalized form, without a sentinel. Width and fill are ignored.
    fn fmt(&self, f: &mut fmt::Formatter<'_>) -> fmt::Result {
        if self.is_parsed() {
            return self.with_compiled(|compiled| calls::normalize(compiled, |text| f.write_str(text)));
        }
        write!(f, "{}", self.to_parsed().without_local())?;
        write_local(f, self.local())
    }
}

/// Writes the segments behind `+`; nothing where there are none.
pub(crate) fn write_local(out: &mut impl fmt::Write, local: &[LocalSegment]) -> fmt::Result {
    for (place, segment) in local.iter().enumerate() {
        write!(out, "{}{segment}", if place == 0 { '+' } else { '.' })?;
    }
    Ok(())
}

impl fmt::Debug for Version {
    /// Writes the normalized form in quotes.
    fn fmt(&self, f: &mut fmt::Formatter<'_>) -> fmt::Result {
        write!(f, "\"{self}\"")
    }
}

impl PartialEq for Version {
    #[inline]
    fn eq(&self, other: &Version) -> bool {
        self.key.words() == other.key.words() && (self.key.is_short() || self.long_key() == other.long_key())
    }
}

impl Eq for Version {}

impl PartialOrd for Version {
    #[inline]
    fn partial_cmp(&self, other: &Version) -> Option<Ordering> {
        Some(self.cmp(other))
    }
}

impl Ord for Version {
    #[inline]
    fn cmp(&self, other: &Version) -> Ordering {
        let ((left, ..), (right, ..)) = (self.key.words(), other.key.words());
        if left == right { self.cmp_equal_starts(other) } else { left.cmp(&right) }
    }
}

impl Hash for Version {
    /// Feeds the sort key.
    fn hash<H: Hasher>(&self, state: &mut H) {
        self.key.words().hash(state);
        if !self.key.is_short() {
            self.long_key().hash(state);
        }
    }
}
