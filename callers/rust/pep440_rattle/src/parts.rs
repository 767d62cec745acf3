//! The parts of a version.
use crate::{LocalSegment, Prerelease, PrereleaseKind};
use alloc::vec;
use alloc::vec::Vec;
use core::ops::Deref;

/// The rank of a sentinel `min`, which stands for the stage.
const MIN: u8 = 0;
/// The rank of a sentinel `max`, which stands for the post-release.
const MAX: u8 = 2;

/// All parts of a version.
#[derive(Clone)]
pub(crate) struct Parts {
    pub(crate) epoch: u64,
    pub(crate) release: Release,
    pub(crate) suffix: Suffix,
    pub(crate) local: Vec<LocalSegment>,
}

/// The numbers of a release, without a heap where they are few.
#[derive(Clone)]
pub(crate) enum Release {
    Few { numbers: [u64; 4], count: usize },
    Many(Vec<u64>),
}

/// What stands between the release and the local part, and the sentinels, which no string has.
#[derive(Clone, Copy)]
pub(crate) struct Suffix {
    pub(crate) pre: Option<Prerelease>,
    pub(crate) post: Option<u64>,
    pub(crate) dev: Option<u64>,
    pub(crate) min: Option<u64>,
    pub(crate) max: Option<u64>,
}

impl Release {
    pub(crate) const EMPTY: Release = Release::Few { numbers: [0; 4], count: 0 };

    pub(crate) fn push(&mut self, number: u64) {
        match self {
            Release::Few { numbers, count } => match numbers.get_mut(*count) {
                Some(place) => {
                    *place = number;
                    *count += 1;
                }
                None => *self = Release::Many([&numbers[..], &[number]].concat()),
            },
            Release::Many(numbers) => numbers.push(number),
        }
    }
}

impl Deref for Release {
    type Target = [u64];

    #[inline]
    fn deref(&self) -> &[u64] {
        match self {
            Release::Few { numbers, count } => &numbers[..*count],
            Release::Many(numbers) => numbers,
        }
    }
}

impl FromIterator<u64> for Release {
    fn from_iter<T: IntoIterator<Item = u64>>(numbers: T) -> Release {
        let mut release = Release::EMPTY;
        numbers.into_iter().for_each(|number| release.push(number));
        release
    }
}

impl Suffix {
    pub(crate) const NONE: Suffix = Suffix { pre: None, post: None, dev: None, min: None, max: None };

    /// Rank and number of stage, post-release and developmental part, as a key has them. A sentinel hides what is beside it.
    #[inline]
    pub(crate) fn ranks(&self) -> [(u8, u64); 3] {
        let Suffix { pre, post, dev, min, max } = *self;
        let stage = match (min, pre, dev, post.or(max)) {
            (Some(_), ..) => (MIN, 0),
            (None, Some(pre), ..) => (2 + pre.kind as u8, pre.number),
            (None, None, Some(_), None) => (1, 0),
            _ => (5, 0),
        };
        let post = max.map(|number| (MAX, number)).or(post.map(|number| (1, number))).unwrap_or((0, 0));
        [stage, post, min.or(dev).map_or((1, 0), |number| (0, number))]
    }

    /// The suffix of these ranks and numbers.
    #[inline]
    pub(crate) fn from_ranks([(stage, pre), (post_rank, post), (dev_rank, dev)]: [(u8, u64); 3]) -> Suffix {
        Suffix {
            pre: PrereleaseKind::from_rank(stage).map(|kind| Prerelease { kind, number: pre }),
            post: (post_rank == 1).then_some(post),
            dev: (dev_rank == 0 && stage != MIN).then_some(dev),
            min: (stage == MIN).then_some(dev),
            max: (post_rank == MAX).then_some(post),
        }
    }

    /// Whether there is a pre-release or a developmental part.
    pub(crate) fn is_early(&self) -> bool {
        self.pre.is_some() || self.dev.is_some()
    }

    pub(crate) fn has_sentinel(&self) -> bool {
        self.min.is_some() || self.max.is_some()
    }

    /// Whether a sentinel hides another part in the key.
    pub(crate) fn is_hidden(&self) -> bool {
        self.min.is_some() && (self.pre.is_some() || self.dev.is_some()) || self.max.is_some() && self.post.is_some()
    }
}

impl Parts {
    /// Whether a string parses to the version.
    pub(crate) fn is_parsed(&self) -> bool {
        !self.suffix.has_sentinel() && self.is_local_normal()
    }

    pub(crate) fn is_local_normal(&self) -> bool {
        self.local.iter().all(LocalSegment::is_normal)
    }

    /// The parts without what no string has: without sentinels, and with one segment 0 for a local part that no string has.
    pub(crate) fn to_parsed(&self) -> Parts {
        let mut parts = self.clone();
        (parts.suffix.min, parts.suffix.max) = (None, None);
        if !parts.is_parsed() {
            parts.local = vec![LocalSegment::Number(0)];
        }
        parts
    }
}
