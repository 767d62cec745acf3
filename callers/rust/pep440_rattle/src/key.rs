//! The sort key of a version, in three words as far as it fits.
use crate::bytes::FINAL;
use crate::parts::Suffix;
use core::array;
use core::num::NonZeroU64;

/// So many bytes of a key are in its words.
pub(crate) const SHORT: usize = 22;
/// So many zeros that end a release are counted beside them.
const ZEROS: usize = 8;
/// Room for the bytes of a version that is told, and as many again behind each of them.
pub(crate) const ROOM: usize = 56;
pub(crate) type Room = [u8; ROOM];

/// In place of how many zeros there are: the words do not tell the version.
const UNTOLD: usize = 15;

/// The first bytes of a sort key, filled up with zero bytes. Each word has its first byte as the greatest, so words are ordered as their
/// bytes are. The last 16 bits are counts, from the lowest: one bit is 1, so that an `Option` has no more words; 5 say how many bytes the key
/// has, 0 for more than these; 4, how many zeros end the release; 5, where the release ends; the greatest bit, whether the version is a
/// release alone.
///
/// No key is a prefix of another one. So where two keys differ and one is short, they differ in these bytes.
#[derive(Clone, Copy)]
pub(crate) struct Key {
    first: u64,
    second: u64,
    third: NonZeroU64,
}

/// The bytes of a version that its words tell: its key, whose release ends at `release_end`, and how many zeros end the release.
pub(crate) struct Sections {
    pub(crate) room: Room,
    pub(crate) release_end: usize,
    pub(crate) length: usize,
    pub(crate) zeros: usize,
}

/// How many bytes 1 end these: the zeros of a release, since a key ends with 0.
pub(crate) fn count_zeros(bytes: &[u8]) -> usize {
    bytes.iter().rev().take_while(|byte| **byte == 1).count()
}

/// Where the release ends, behind the byte 0 after its numbers. The first byte of a number says how many follow: of the epoch as it is, of the
/// others with 1 added.
#[inline]
fn find_release_end(room: &[u8]) -> usize {
    let mut end = 1 + usize::from(room[0]);
    while let Some(step @ 1..) = room.get(end) {
        end += usize::from(*step);
    }
    end + 1
}

impl Key {
    /// That of `0a0.dev0`, with its zero: the epoch, the release, stage, post-release and developmental part, a local part without segments.
    pub(crate) const MIN: Key =
        Key { first: 32 << 40, second: 0, third: NonZeroU64::new(2 << 10 | 1 << 6 | 6 << 1 | 1).unwrap() };

    /// The key of a version whose bytes begin `room`, filled up with zero bytes; None where the words do not tell the version.
    #[inline]
    pub(crate) fn from_room(mut room: [u8; SHORT + ZEROS], length: usize) -> Option<Key> {
        let mut end = length;
        while let Some(last @ 1) = room.get_mut(end.wrapping_sub(1)) {
            *last = 0;
            end -= 1;
        }
        Key::from_key(&room, end, length - end, find_release_end(&room))
    }

    /// The key that begins `room`, filled up with zero bytes, of so many zeros; None where the words do not tell the version.
    #[inline]
    pub(crate) fn from_key<const SIZE: usize>(room: &[u8; SIZE], length: usize, zeros: usize, release_end: usize) -> Option<Key> {
        (length <= SHORT && zeros <= ZEROS).then(|| Key::from_words(room, length, zeros, release_end))
    }

    /// The key of a version of these bytes; None where the words do not tell the version.
    pub(crate) fn from_bytes(bytes: &[u8]) -> Option<Key> {
        let mut room = [0; SHORT + ZEROS];
        room.get_mut(..bytes.len())?.copy_from_slice(bytes);
        Key::from_room(room, bytes.len())
    }

    /// The key of a version of these bytes that is told elsewhere.
    pub(crate) fn untold(bytes: &[u8]) -> Key {
        let (mut room, key) = ([0; SHORT + ZEROS], &bytes[..bytes.len() - count_zeros(bytes)]);
        room[..SHORT].iter_mut().zip(key).for_each(|(place, byte)| *place = *byte);
        Key::from_words(&room, if key.len() > SHORT { 0 } else { key.len() }, UNTOLD, 0)
    }

    #[inline]
    fn from_words<const SIZE: usize>(room: &[u8; SIZE], length: usize, zeros: usize, release_end: usize) -> Key {
        let word = |place: usize| u64::from_be_bytes(array::from_fn(|index| room[8 * place + index]));
        let is_final = room.get(release_end..release_end + FINAL.len()).is_some_and(|after| *after == FINAL);
        let counts = usize::from(is_final) << 15 | release_end << 10 | zeros << 6 | length << 1;
        Key { first: word(0), second: word(1), third: NonZeroU64::MIN | word(2) >> 16 << 16 | counts as u64 }
    }

    #[inline]
    fn counts(&self) -> usize {
        let [low, high, ..] = self.third.get().to_le_bytes();
        u16::from_le_bytes([low, high]).into()
    }

    #[inline]
    fn zeros(&self) -> usize {
        self.counts() >> 6 & 15
    }

    /// How many bytes the key has; 0 where there are more than in the words.
    #[inline]
    fn length(&self) -> usize {
        self.counts() >> 1 & 31
    }

    #[inline]
    fn release_end(&self) -> usize {
        self.counts() >> 10 & 31
    }

    /// The words without the counts.
    #[inline]
    pub(crate) fn words(&self) -> (u64, u64, u64) {
        (self.first, self.second, self.third.get() >> 16)
    }

    /// Whether the words have the whole key.
    #[inline]
    pub(crate) fn is_short(&self) -> bool {
        self.length() != 0
    }

    /// Whether the words tell the version.
    #[inline]
    pub(crate) fn is_told(&self) -> bool {
        self.zeros() != UNTOLD
    }

    /// Whether the epoch is not 0.
    #[inline]
    pub(crate) fn has_epoch(&self) -> bool {
        self.first >> 56 != 0
    }

    /// Whether they tell that it is a release alone, without an epoch or with one.
    #[inline]
    pub(crate) fn is_final(&self) -> bool {
        self.counts() >> 15 == 1
    }

    #[inline]
    fn byte(&self, place: usize) -> u8 {
        [self.first, self.second, self.third.get()][place / 8].to_be_bytes()[place % 8]
    }

    /// Whether there is a pre-release or a developmental part in what the words tell. A stage from 1 to 4 is of one; behind a post-release,
    /// which has stage 5, rank 0 is of a developmental part.
    #[inline]
    pub(crate) fn is_early(&self) -> bool {
        let place = self.release_end();
        match self.byte(place) / 16 {
            5 => self.byte(place + 2 + usize::from(self.byte(place + 1) % 16)) < 16,
            stage => stage != 0,
        }
    }

    /// Calls `read` with `start`, and the bytes of the version that the words tell.
    #[inline]
    pub(crate) fn with_bytes<T>(&self, start: [u8; 2], read: impl FnOnce(&[u8]) -> T) -> T {
        let mut room = [0; 2 + SHORT + ZEROS];
        let (length, zeros) = (self.length(), self.zeros());
        room[..2].copy_from_slice(&start);
        for (place, word) in [self.first, self.second, self.third.get()].into_iter().enumerate() {
            room[2 + 8 * place..][..8].copy_from_slice(&word.to_be_bytes());
        }
        room[2 + length..2 + length + ZEROS].fill(1);
        read(&room[..2 + length + zeros])
    }

    /// The sections of the version that the words tell.
    #[inline]
    pub(crate) fn sections(&self) -> Sections {
        let mut room = [0; ROOM];
        for (place, word) in [self.first, self.second, self.third.get() >> 16 << 16].into_iter().enumerate() {
            room[8 * place..][..8].copy_from_slice(&word.to_be_bytes());
        }
        Sections { room, release_end: self.release_end(), length: self.length(), zeros: self.zeros() }
    }
}

impl Sections {
    #[inline]
    pub(crate) fn epoch_end(&self) -> usize {
        1 + usize::from(self.room[0])
    }

    /// Where the suffix ends: behind three numbers.
    #[inline]
    pub(crate) fn suffix_end(&self) -> usize {
        (0..3).fold(self.release_end, |end, _| end + 1 + usize::from(self.room[end] % 16))
    }

    /// The bytes from the place on.
    #[inline]
    pub(crate) fn block(&self, place: usize) -> &[u8; SHORT] {
        self.room[place..].first_chunk().expect("a place in the key")
    }

    /// Whether the release has more than one number, of which the first begins with how many bytes it takes.
    #[inline]
    pub(crate) fn has_two_numbers(&self) -> bool {
        let start = self.epoch_end();
        let first = usize::from(self.room[start]);
        let numbers = if first == 0 { 0 } else { 1 + usize::from(self.room[start + first] != 0) };
        numbers + self.zeros > 1
    }

    #[inline]
    pub(crate) fn suffix(&self) -> Suffix {
        let mut place = self.release_end;
        Suffix::from_ranks([(); 3].map(|()| self.ranked(&mut place)))
    }

    /// Rank and number at the place, which is moved behind them.
    #[inline]
    fn ranked(&self, place: &mut usize) -> (u8, u64) {
        let [first, number @ ..] = *self.room[*place..].first_chunk::<9>().expect("a place in the key");
        let count = first % 16;
        *place += 1 + usize::from(count);
        (first / 16, u64::from_be_bytes(number).checked_shr(64 - 8 * u32::from(count)).unwrap_or(0))
    }

    #[inline]
    pub(crate) fn has_local(&self) -> bool {
        self.room[self.suffix_end()] != 0
    }
}
