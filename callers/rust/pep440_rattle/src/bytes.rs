//! Compiled bytes, read and written as their definition says (`crates/pep440_compiled/specs`).
//!
//! A version is 4, its sort key, and a byte 1 for each zero that ends its release. A list is 5, and each member: 16 and the number of its
//! operator, then key and zeros of its version. In a key a number is a base and how many bytes follow, and then these, the
//! greatest first.
//!
//! A version that no string parses to has a key, too, with a sentinel in place of its stage or its post-release, and with 255 after
//! each zero byte of a local string. The library rejects such bytes wherever it reads the whole of them.
use crate::calls::WRITTEN;
use crate::key::{Key, ROOM, Room, SHORT, Sections};
use crate::parts::{Parts, Release, Suffix};
use crate::{LocalSegment, Operator, VersionSpecifier};
use alloc::borrow::ToOwned;
use alloc::vec;
use alloc::vec::Vec;
use core::borrow::Borrow;

pub(crate) const VERSION: u8 = 4;
const LIST: u8 = 5;
const OPERATOR: u8 = 16;
/// What follows the release of a version that is nothing else: stage, post-release, developmental and local part.
pub(crate) const FINAL: [u8; 4] = [80, 0, 16, 0];

/// The key of a version as it is written: in `room` while it fits, then all of it on the heap. Behind it the room has zero bytes, once all is
/// written.
pub(crate) struct Writer {
    room: Room,
    length: usize,
    heap: Vec<u8>,
    release_end: usize,
    zeros: usize,
}

impl Writer {
    /// A writer behind the epoch.
    #[inline]
    pub(crate) fn from_epoch(epoch: u64) -> Writer {
        let mut writer = Writer::from_room([0; ROOM], 0);
        writer.push_number(0, epoch);
        writer
    }

    /// A writer behind the first bytes of the room.
    #[inline]
    fn from_room(room: Room, length: usize) -> Writer {
        Writer { room, length, heap: Vec::new(), release_end: 0, zeros: 0 }
    }

    /// A writer behind the epoch of a key.
    #[inline]
    pub(crate) fn after_epoch(sections: &Sections) -> Writer {
        Writer::from_room(sections.room, sections.epoch_end())
    }

    /// A writer behind the release of a key.
    #[inline]
    pub(crate) fn after_release(sections: &Sections) -> Writer {
        let Sections { room, release_end, zeros, .. } = *sections;
        Writer { release_end, zeros, ..Writer::from_room(room, release_end) }
    }

    #[inline]
    fn push(&mut self, byte: u8) {
        self.push_block(&[byte], 1);
    }

    /// Writes the first bytes of the block.
    #[inline]
    fn push_block<const SIZE: usize>(&mut self, block: &[u8; SIZE], count: usize) {
        match self.room.get_mut(self.length..).and_then(|room| room.first_chunk_mut()) {
            Some(place) => {
                *place = *block;
                self.length += count;
            }
            None => self.push_to_heap(&block[..count]),
        }
    }

    #[cold]
    fn push_to_heap(&mut self, bytes: &[u8]) {
        if self.heap.is_empty() {
            self.heap.extend_from_slice(&self.room[..self.length]);
        }
        self.heap.extend_from_slice(bytes);
        self.length = ROOM;
    }

    #[inline]
    fn push_number(&mut self, base: u8, number: u64) {
        if number == 0 {
            return self.push(base);
        }
        let empty = number.leading_zeros() / 8;
        let count = 8 - empty.to_le_bytes()[0];
        let mut block = [0; 9];
        block[0] = base + count;
        block[1..].copy_from_slice(&(number << (8 * empty)).to_be_bytes());
        self.push_block(&block, 1 + usize::from(count));
    }

    /// Writes the numbers and a byte 0, and keeps in mind the zeros that end them. There must be a number.
    #[inline]
    pub(crate) fn push_release<R: Borrow<u64>>(&mut self, numbers: impl IntoIterator<Item = R>) {
        let mut is_empty = true;
        for number in numbers {
            let number: u64 = *number.borrow();
            is_empty = false;
            if number == 0 {
                self.zeros += 1;
            } else {
                (0..self.zeros).for_each(|_| self.push(1));
                self.zeros = 0;
                self.push_number(1, number);
            }
        }
        assert!(!is_empty, "release must have non-zero size");
        self.push(0);
        self.release_end = self.length;
    }

    /// Writes the release of a key.
    #[inline]
    pub(crate) fn push_release_of(&mut self, sections: &Sections) {
        let start = sections.epoch_end();
        self.push_block(sections.block(start), sections.release_end - start);
        (self.release_end, self.zeros) = (self.length, sections.zeros);
    }

    #[inline]
    pub(crate) fn push_suffix(&mut self, suffix: &Suffix) {
        for (rank, number) in suffix.ranks() {
            self.push_number(16 * rank, number);
        }
    }

    /// Writes what follows the release of a version that is nothing else.
    #[inline]
    pub(crate) fn push_final(&mut self) {
        let mut block = [0; SHORT];
        block[..FINAL.len()].copy_from_slice(&FINAL);
        self.push_block(&block, FINAL.len());
    }

    /// Writes what begins in a key at the place, up to the end.
    #[inline]
    pub(crate) fn push_end_of(&mut self, sections: &Sections, place: usize) {
        self.push_block(sections.block(place), sections.length - place);
    }

    pub(crate) fn push_local(&mut self, local: &[LocalSegment]) {
        for segment in local {
            self.push_segment(segment);
        }
        self.push_block(&[0; SHORT], 1);
    }

    fn push_segment(&mut self, segment: &LocalSegment) {
        match segment {
            LocalSegment::String(text) => {
                self.push(1);
                for byte in text.bytes() {
                    self.push(byte);
                    if byte == 0 {
                        self.push(255);
                    }
                }
                self.push(0);
            }
            LocalSegment::Number(number) => self.push_number(2, *number),
        }
    }

    /// All bytes of the version: its key, and its zeros.
    pub(crate) fn bytes(&self) -> Vec<u8> {
        let key = if self.heap.is_empty() { &self.room[..self.length] } else { &self.heap };
        [key, &vec![1; self.zeros]].concat()
    }

    /// The key, where it tells the version.
    #[inline]
    pub(crate) fn key(&self) -> Option<Key> {
        Key::from_key(&self.room, self.length, self.zeros, self.release_end)
    }
}

/// The key of a version of these parts, and the zeros that end its release.
pub(crate) fn version(parts: &Parts) -> Writer {
    let mut writer = Writer::from_epoch(parts.epoch);
    writer.push_release(&*parts.release);
    writer.push_suffix(&parts.suffix);
    writer.push_local(&parts.local);
    writer
}

/// What comes before the version in a list of it alone.
#[inline]
pub(crate) fn list_start(operator: Operator) -> [u8; 2] {
    [LIST, OPERATOR + operator as u8]
}

/// The bytes of a list of these members, of which none has a version below that of the one before it.
pub(crate) fn list(members: &[VersionSpecifier]) -> Vec<u8> {
    let mut bytes = Vec::with_capacity(1 + members.len() * (1 + SHORT));
    bytes.push(LIST);
    for member in members {
        bytes.push(OPERATOR + *member.operator() as u8);
        member.version().with_bytes(|version| bytes.extend_from_slice(version));
    }
    bytes
}

/// The parts of the version of this key, with the zeros after it.
pub(crate) fn read_parts(bytes: &[u8]) -> Parts {
    let mut rest = Rest(bytes);
    let ((_, epoch), mut release, mut local) = (rest.ranked(), Release::EMPTY, Vec::new());
    while let Some(first) = rest.first() {
        release.push(rest.number(first - 1));
    }
    let suffix = Suffix::from_ranks([(); 3].map(|()| rest.ranked()));
    while let Some(first) = rest.first() {
        local.push(rest.segment(first));
    }
    rest.0.iter().for_each(|_| release.push(0));
    Parts { epoch, release, suffix, local }
}

/// What is not read yet of bytes that the library wrote.
struct Rest<'a>(&'a [u8]);

impl<'a> Rest<'a> {
    #[inline]
    fn take(&mut self, count: usize) -> &'a [u8] {
        let (front, rest) = self.0.split_at_checked(count).expect(WRITTEN);
        self.0 = rest;
        front
    }

    #[inline]
    fn byte(&mut self) -> u8 {
        self.take(1)[0]
    }

    #[inline]
    fn number(&mut self, count: u8) -> u64 {
        self.take(count.into()).iter().fold(0, |number, byte| number << 8 | u64::from(*byte))
    }

    #[inline]
    fn ranked(&mut self) -> (u8, u64) {
        let first = self.byte();
        (first / 16, self.number(first % 16))
    }

    /// The byte that begins a number or a segment; None at the byte 0 after the last one.
    #[inline]
    fn first(&mut self) -> Option<u8> {
        Some(self.byte()).filter(|first| *first != 0)
    }

    /// The segment behind its first byte.
    fn segment(&mut self, first: u8) -> LocalSegment {
        if first != 1 {
            return LocalSegment::Number(self.number(first - 2));
        }
        let end = self.0.iter().position(|byte| *byte == 0).expect(WRITTEN);
        let text = core::str::from_utf8(self.take(end)).expect(WRITTEN);
        self.byte();
        LocalSegment::String(text.to_owned())
    }
}
