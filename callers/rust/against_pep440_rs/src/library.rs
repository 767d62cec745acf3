//! The calls of the C library, as functions of slices.
use std::cmp::Ordering;

/// A `pep440_string`.
#[repr(C)]
struct Borrowed {
    bytes: *const u8,
    length: usize,
}

/// A `pep440_parts`.
#[repr(C)]
#[derive(Default)]
pub struct Parts {
    pub epoch: u64,
    pub pre: u64,
    pub post: u64,
    pub dev: u64,
    release_length: usize,
    pub pre_kind: u8,
    pub has_post: u8,
    pub has_dev: u8,
    pub has_local: u8,
}

unsafe extern "C" {
    fn pep440_compile(version: *const u8, length: usize, out: *mut u8, size: usize, written: *mut usize) -> u8;
    fn pep440_compile_list(list: *const u8, length: usize, out: *mut u8, size: usize, written: *mut usize) -> u8;
    fn pep440_compile_specifier(specifier: *const u8, length: usize, out: *mut u8, size: usize, written: *mut usize) -> u8;
    fn pep440_normalize(version: *const u8, length: usize, out: *mut u8, size: usize, written: *mut usize) -> u8;
    fn pep440_normalize_list(list: *const u8, length: usize, out: *mut u8, size: usize, written: *mut usize) -> u8;
    fn pep440_compare(left: *const u8, left_length: usize, right: *const u8, right_length: usize, order: *mut i8) -> u8;
    fn pep440_contains(
        list: *const u8,
        list_length: usize,
        version: *const u8,
        length: usize,
        contained: *mut u8,
        prerelease: *mut u8,
    ) -> u8;
    fn pep440_parts_of(version: *const u8, length: usize, parts: *mut Parts, release: *mut u64, size: usize) -> u8;
    fn pep440_build_error(
        operator: u8,
        version: *const u8,
        length: usize,
        star: u8,
        out: *mut u8,
        size: usize,
        written: *mut usize,
    ) -> u8;
    fn pep440_edit(
        version: *const u8,
        length: usize,
        changes: *const Borrowed,
        count: usize,
        out: *mut u8,
        size: usize,
        written: *mut usize,
    ) -> u8;
    fn pep440_sort(strings: *const Borrowed, count: usize, indices: *mut usize, size: usize, index: *mut usize) -> u8;
    fn pep440_sort_keys(
        strings: *const Borrowed,
        count: usize,
        out: *mut u8,
        size: usize,
        ends: *mut usize,
        ends_size: usize,
        written: *mut usize,
        index: *mut usize,
    ) -> u8;
    fn pep440_compile_all(
        strings: *const Borrowed,
        count: usize,
        out: *mut u8,
        size: usize,
        ends: *mut usize,
        ends_size: usize,
        written: *mut usize,
        index: *mut usize,
    ) -> u8;
}

const OK: u8 = 0;
pub const INVALID_VERSION: u8 = 1;

/// What the call writes of the bytes, or its status.
fn write(call: unsafe extern "C" fn(*const u8, usize, *mut u8, usize, *mut usize) -> u8, bytes: &[u8]) -> Result<Vec<u8>, u8> {
    // SAFETY: a slice's pointer is never null and has as many bytes as is said, as in each call here.
    written(|out, size, length| unsafe { call(bytes.as_ptr(), bytes.len(), out, size, length) })
}

/// What the call writes into the room that it is given, or its status.
fn written(call: impl FnOnce(*mut u8, usize, *mut usize) -> u8) -> Result<Vec<u8>, u8> {
    let (mut out, mut length) = (vec![0; 8192], 0);
    match call(out.as_mut_ptr(), out.len(), &mut length) {
        OK => {
            out.truncate(length);
            Ok(out)
        }
        other => Err(other),
    }
}

pub fn compile(version: &[u8]) -> Result<Vec<u8>, u8> {
    write(pep440_compile, version)
}

pub fn compile_list(list: &[u8]) -> Result<Vec<u8>, u8> {
    write(pep440_compile_list, list)
}

pub fn compile_specifier(specifier: &[u8]) -> Result<Vec<u8>, u8> {
    write(pep440_compile_specifier, specifier)
}

pub fn normalize(version: &[u8]) -> Result<Vec<u8>, u8> {
    write(pep440_normalize, version)
}

pub fn normalize_list(list: &[u8]) -> Result<Vec<u8>, u8> {
    write(pep440_normalize_list, list)
}

pub fn compare(left: &[u8], right: &[u8]) -> Ordering {
    let mut order = 0;
    // SAFETY: as in `write`.
    let status = unsafe { pep440_compare(left.as_ptr(), left.len(), right.as_ptr(), right.len(), &mut order) };
    assert_eq!(status, OK, "{left:?} {right:?}");
    order.cmp(&0)
}

/// Whether the list contains the version, and whether this is a pre-release.
pub fn contains(list: &[u8], version: &[u8]) -> (bool, bool) {
    let (mut contained, mut early, start) = (7, 7, version.as_ptr());
    // SAFETY: as in `write`.
    let status = unsafe { pep440_contains(list.as_ptr(), list.len(), start, version.len(), &mut contained, &mut early) };
    assert_eq!(status, OK, "{list:?} {version:?}");
    (contained == 1, early == 1)
}

/// The parts of a version and its release, or the status.
pub fn parts_of(version: &[u8]) -> Result<(Parts, Vec<u64>), u8> {
    let (mut parts, mut release) = (Parts::default(), vec![0; 4096]);
    // SAFETY: as in `write`.
    match unsafe { pep440_parts_of(version.as_ptr(), version.len(), &mut parts, release.as_mut_ptr(), release.len()) } {
        OK => {
            release.truncate(parts.release_length);
            Ok((parts, release))
        }
        other => Err(other),
    }
}

/// Why an operator and a version make no specifier, with `.*` or without; empty where they do.
pub fn build_error(operator: usize, version: &[u8], star: bool) -> Vec<u8> {
    let (operator, star) = (operator.try_into().expect("an operator"), star.into());
    // SAFETY: as in `write`.
    written(|out, size, length| unsafe { pep440_build_error(operator, version.as_ptr(), version.len(), star, out, size, length) })
        .expect("an operator and a version have an answer")
}

/// The version that the changes make, or the status.
pub fn edit(version: &[u8], changes: &[String]) -> Result<Vec<u8>, u8> {
    let strings = borrow_all(changes);
    // SAFETY: as in `write`; the strings live on in `changes`.
    written(|out, size, length| unsafe {
        pep440_edit(version.as_ptr(), version.len(), strings.as_ptr(), strings.len(), out, size, length)
    })
}

fn borrow_all(texts: &[String]) -> Vec<Borrowed> {
    texts.iter().map(|text| Borrowed { bytes: text.as_ptr(), length: text.len() }).collect()
}

/// The indices of the versions as sorted.
pub fn sort(versions: &[String]) -> Vec<usize> {
    let (strings, mut indices, mut index) = (borrow_all(versions), vec![0; versions.len()], 0);
    // SAFETY: as in `edit`.
    let status = unsafe { pep440_sort(strings.as_ptr(), strings.len(), indices.as_mut_ptr(), indices.len(), &mut index) };
    assert_eq!(status, OK, "{versions:?}");
    indices
}

/// What a call writes of each of many strings.
type WriteEach = unsafe extern "C" fn(*const Borrowed, usize, *mut u8, usize, *mut usize, usize, *mut usize, *mut usize) -> u8;

pub fn sort_keys(versions: &[String]) -> Vec<Vec<u8>> {
    written_of_each(pep440_sort_keys, versions)
}

pub fn compile_all(versions: &[String]) -> Vec<Vec<u8>> {
    written_of_each(pep440_compile_all, versions)
}

fn written_of_each(call: WriteEach, versions: &[String]) -> Vec<Vec<u8>> {
    let (strings, count) = (borrow_all(versions), versions.len());
    let (mut out, mut ends, mut length, mut index) = (vec![0; 1024 * count], vec![0; count], 0, 0);
    let (start, size) = (out.as_mut_ptr(), out.len());
    // SAFETY: as in `edit`.
    let status = unsafe { call(strings.as_ptr(), count, start, size, ends.as_mut_ptr(), count, &mut length, &mut index) };
    assert_eq!((status, ends.last()), (OK, Some(&length)), "{versions:?}");
    let starts = std::iter::once(&0).chain(&ends);
    starts.zip(&ends).map(|(start, end)| out[*start..*end].to_vec()).collect()
}
