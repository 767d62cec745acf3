//! The calls of the C library, each behind a safe function. Beside `lazy` this is the one module with `unsafe`.
//!
//! What the header asks of a caller holds of every call here: a slice's pointer is never null and has as many bytes as it
//! says, what is written to is a local variable or a vector of this module, so it overlaps nothing else, and its type gives
//! its alignment. The library has no state and keeps no pointer, so any thread may call.
#![allow(unsafe_code)]

use crate::RangeError;
use alloc::alloc::handle_alloc_error;
use alloc::boxed::Box;
use alloc::vec;
use alloc::vec::Vec;
use core::alloc::Layout;
use core::slice::ChunksExact;

type Writer = unsafe extern "C" fn(*const u8, usize, *mut u8, usize, *mut usize) -> u8;

type WriterWithEnds = unsafe extern "C" fn(*const u8, usize, *mut u8, usize, *mut usize, usize, *mut usize, *mut usize) -> u8;

/// Declares calls of the same arguments.
macro_rules! declare {
    ($($arguments:tt: $($name:ident)*;)*) => { unsafe extern "C" { $($(fn $name $arguments -> u8;)*)* } };
}

declare! {
    (bytes: *const u8, length: usize, out: *mut u8, size: usize, written: *mut usize): pep440_compile pep440_normalize pep440_normalize_list;
    (
        list: *const u8, length: usize,
        out: *mut u8, size: usize, ends: *mut usize, ends_size: usize, written: *mut usize, count: *mut usize
    ): pep440_range_bounds pep440_release_range_bounds;
    (pattern: *const u8, length: usize, out: *mut u8, size: usize, written: *mut usize, star: *mut u8): pep440_pattern;
    (kind: u8, bytes: *const u8, length: usize, out: *mut u8, size: usize, written: *mut usize): pep440_error;
    (
        operator: u8, version: *const u8, length: usize, star: u8, out: *mut u8, size: usize, written: *mut usize
    ): pep440_build_error;
    (
        list: *const u8, list_length: usize, version: *const u8, length: usize, contained: *mut u8, prerelease: *mut u8
    ): pep440_contains;
}

const OK: u8 = 0;
const INVALID_VERSION: u8 = 1;
const INVALID_LIST: u8 = 2;
const OUT_OF_MEMORY: u8 = 3;
const NO_ROOM: u8 = 4;
const NUMBER_AT_MAX: u8 = 5;

/// What holds of each result of a call.
pub(crate) const WRITTEN: &str = "the library wrote these bytes";

/// The string or the compiled bytes are no version, or no list.
#[derive(Debug)]
pub(crate) struct Invalid;

/// What a status other than `OK` and `NO_ROOM` means. Out of memory ends the process, as in the standard library.
#[cold]
fn invalid(status: u8) -> Invalid {
    #[cfg(without_library)]
    needed::<()>();
    match status {
        INVALID_VERSION | INVALID_LIST => Invalid,
        OUT_OF_MEMORY => handle_alloc_error(Layout::new::<u8>()),
        _ => panic!("the library returns a status that its header does not name: {status}"),
    }
}

/// What the status of a range means that is not written.
#[cold]
fn range_error(status: u8) -> RangeError {
    if status == NUMBER_AT_MAX {
        return RangeError::NumberAtMax;
    }
    let Invalid = invalid(status);
    RangeError::NotParsed
}

/// An error of the compiler as soon as code is made, which `cargo check` and `cargo doc` do not do.
#[cfg(without_library)]
#[expect(clippy::extra_unused_type_parameters, reason = "a constant of a generic function has its value when code is made of it")]
fn needed<T>() {
    const { panic!("{}", env!("PEP440_NEEDED")) }
}

/// The bytes of a string. Compiled versions, lists and sets begin with 4 to 7, and each call takes them in place of strings; no valid string
/// begins so.
#[inline]
fn bytes_of(string: &str) -> Result<&[u8], Invalid> {
    match string.as_bytes() {
        [4..=7, ..] => Err(Invalid),
        bytes => Ok(bytes),
    }
}

/// As many bytes are written here before a vector is.
const STACK: usize = 128;
/// As many bytes of a compiled version.
const STACK_OF_VERSION: usize = 64;
/// As many ends of bounds.
const STACK_OF_ENDS: usize = 16;

#[inline]
fn writer(call: Writer, input: &[u8]) -> impl FnMut(&mut [u8], &mut usize) -> u8 {
    // SAFETY: as the module says.
    move |out, length| unsafe { call(input.as_ptr(), input.len(), out.as_mut_ptr(), out.len(), length) }
}

/// Calls `read` with room, and how many bytes `call` has written at its start; zero bytes follow. The call is given room for some bytes, and
/// writes how many it has written or needs.
#[inline]
fn written_to_room<const STACK: usize, T>(
    mut call: impl FnMut(&mut [u8], &mut usize) -> u8,
    read: impl FnOnce(&[u8], usize) -> T,
) -> Result<T, Invalid> {
    let (mut room, mut length) = ([0; STACK], 0);
    match call(&mut room, &mut length) {
        OK => Ok(read(&room, length)),
        NO_ROOM => written_to_heap(call, length.max(STACK), read),
        other => Err(invalid(other)),
    }
}

#[cold]
#[inline(never)]
fn written_to_heap<T>(
    mut call: impl FnMut(&mut [u8], &mut usize) -> u8,
    size: usize,
    read: impl FnOnce(&[u8], usize) -> T,
) -> Result<T, Invalid> {
    let (mut room, mut length) = (vec![0; size], 0);
    match call(&mut room, &mut length) {
        OK => Ok(read(&room, length)),
        other => Err(invalid(other)),
    }
}

pub(crate) fn as_text(bytes: &[u8]) -> &str {
    core::str::from_utf8(bytes).expect("the library writes UTF-8")
}

/// The text that `call` writes.
fn text(call: impl FnMut(&mut [u8], &mut usize) -> u8) -> Result<Box<str>, Invalid> {
    written_to_room::<STACK, _>(call, |room, length| as_text(&room[..length]).into())
}

/// Calls `read` with room that compiled bytes of a version begin, and how many they are; zero bytes follow.
#[inline]
pub(crate) fn compile<T>(version: &str, read: impl FnOnce(&[u8], usize) -> T) -> Result<T, Invalid> {
    written_to_room::<STACK_OF_VERSION, _>(writer(pep440_compile, bytes_of(version)?), read)
}

/// Calls `read` with the normalized form of the version of a pattern, and with whether `.*` follows it.
pub(crate) fn pattern<T>(pattern: &str, read: impl FnOnce(&str, bool) -> T) -> Result<T, Invalid> {
    let (bytes, mut star) = (bytes_of(pattern)?, 0);
    let call = |out: &mut [u8], length: &mut usize| {
        // SAFETY: as the module says.
        unsafe { pep440_pattern(bytes.as_ptr(), bytes.len(), out.as_mut_ptr(), out.len(), length, &raw mut star) }
    };
    let version = text(call)?;
    Ok(read(&version, star == 1))
}

/// Calls `read` with the normalized form of a list, as `>=1.16, <2.0`.
pub(crate) fn normalize_list<T>(list: &str, read: impl FnOnce(&str) -> T) -> Result<T, Invalid> {
    written_to_room::<STACK, _>(writer(pep440_normalize_list, bytes_of(list)?), |room, length| read(as_text(&room[..length])))
}

/// What a string was to be, by the numbers of the library.
#[derive(Clone, Copy)]
pub(crate) enum Kind {
    Version,
    Pattern,
    Specifier,
    List,
}

/// Why a string is none of this kind; empty where it is one.
pub(crate) fn error(kind: Kind, string: &str) -> Box<str> {
    let said = |string: &[u8]| {
        let call = |out: &mut [u8], length: &mut usize| {
            // SAFETY: as the module says.
            unsafe { pep440_error(kind as u8, string.as_ptr(), string.len(), out.as_mut_ptr(), out.len(), length) }
        };
        text(call).expect("any string has an answer")
    };
    match bytes_of(string) {
        Ok(bytes) => said(bytes),
        // Another character that no valid string begins with, and that is written alike.
        Err(_) => said(["\u{1}", &string[1..]].concat().as_bytes()).replacen('\u{1}', &string[..1], 1).into(),
    }
}

/// Why the operator of this number and the compiled version make no specifier, `.*` behind the version or not; empty where they do.
pub(crate) fn build_error(operator: u8, version: &[u8], star: bool) -> Box<str> {
    let call = |out: &mut [u8], length: &mut usize| {
        // SAFETY: as the module says.
        unsafe { pep440_build_error(operator, version.as_ptr(), version.len(), star.into(), out.as_mut_ptr(), out.len(), length) }
    };
    text(call).expect("an operator and compiled bytes have an answer")
}

/// Calls `read` with the normalized form of a compiled version.
pub(crate) fn normalize<T>(version: &[u8], read: impl FnOnce(&str) -> T) -> T {
    written_to_room::<STACK, _>(writer(pep440_normalize, version), |room, length| read(as_text(&room[..length])))
        .expect("compiled bytes have a normalized form")
}

/// Calls `read` with the bounds of each segment of the range of a compiled list.
pub(crate) fn range_bounds<T>(list: &[u8], read: impl FnOnce(Pairs) -> T) -> Result<T, RangeError> {
    pairs(pep440_range_bounds, list, read).map_err(range_error)
}

/// Calls `read` with those of its release-only range.
pub(crate) fn release_range_bounds<T>(list: &[u8], read: impl FnOnce(Pairs) -> T) -> Result<T, RangeError> {
    pairs(pep440_release_range_bounds, list, read).map_err(range_error)
}

/// What a call writes one after the other, two at a time.
pub(crate) struct Pairs<'a> {
    bytes: &'a [u8],
    ends: ChunksExact<'a, usize>,
    start: usize,
}

impl<'a> Iterator for Pairs<'a> {
    type Item = [&'a [u8]; 2];

    fn next(&mut self) -> Option<Self::Item> {
        let [middle, end] = *self.ends.next()? else { return None };
        let start = core::mem::replace(&mut self.start, end);
        Some([&self.bytes[start..middle], &self.bytes[middle..end]])
    }

    fn size_hint(&self) -> (usize, Option<usize>) {
        self.ends.size_hint()
    }
}

/// Calls `read` with what `call` writes of `input`, or returns its status.
fn pairs<T>(call: WriterWithEnds, input: &[u8], read: impl FnOnce(Pairs) -> T) -> Result<T, u8> {
    let (mut stack, mut heap, mut length) = ([0; STACK], Vec::new(), 0);
    let (mut stack_of_ends, mut heap_of_ends, mut count) = ([0; STACK_OF_ENDS], Vec::new(), 0);
    let call = |out: &mut [u8], ends: &mut [usize], length: &mut usize, count: &mut usize| {
        let (size, ends_size) = (out.len(), ends.len());
        // SAFETY: as the module says.
        unsafe { call(input.as_ptr(), input.len(), out.as_mut_ptr(), size, ends.as_mut_ptr(), ends_size, length, count) }
    };
    let (mut room, mut ends) = (stack.as_mut_slice(), stack_of_ends.as_mut_slice());
    let mut status = call(room, ends, &mut length, &mut count);
    if status == NO_ROOM {
        heap.resize(length, 0);
        heap_of_ends.resize(count, 0);
        (room, ends) = (&mut heap, &mut heap_of_ends);
        status = call(room, ends, &mut length, &mut count);
    }
    if status != OK {
        return Err(status);
    }
    Ok(read(Pairs { bytes: &room[..length], ends: ends[..count].chunks_exact(2), start: 0 }))
}

/// Whether a compiled list contains a compiled version. Not specified where no string parses to a version of either.
#[inline]
pub(crate) fn contains(list: &[u8], version: &[u8]) -> bool {
    let (mut contained, mut prerelease) = (0, 0);
    // SAFETY: as the module says.
    let status = unsafe {
        pep440_contains(list.as_ptr(), list.len(), version.as_ptr(), version.len(), &raw mut contained, &raw mut prerelease)
    };
    if status == OK {
        return contained == 1;
    }
    // No version is contained where compiled bytes denote no version or no list.
    let Invalid = invalid(status);
    false
}
