/* PEP 440 for C: version numbers of Python packages, parsed, normalized, compared and matched by
   the proved library.

   A version or a list is passed as bytes and a length, with no zero at the end; for `const char *`
   see the calls at the end of this header. The bytes are a string, or a compiled form, made once of
   a string (below): bytes that begin with 4, 5, 6 or 7 are taken as one. Every call takes either, but
   the five of a pattern or a single specifier (pep440_pattern, pep440_pattern_error,
   pep440_specifier, pep440_specifier_error and pep440_compile_specifier), which take strings. Bytes
   that are neither are an invalid version or list. Each call returns a status. No call keeps a
   pointer, and none ends the process. Programs to begin with are in the folder examples of the
   release archive, and in callers/c/examples of the repository.

   What the caller must keep, for nothing checks it:
   - Each pointer points to as many items as its length says. Only beside a length of 0 it may be
     null, as `bytes` of a pep440_string may: that is an empty string, batch or buffer.
   - Each pointer is aligned as its type: a pep440_string, a pep440_parts, a size_t and a uint64_t
     to 8 bytes.
   - What a call writes to overlaps nothing else that is passed to it. Strings that it only reads
     may overlap each other.
   - While a call runs, nothing else writes to what it reads, or reads or writes what it writes.
   - malloc, realloc and free belong together, and align as usual: blocks of 16, 32, .. bytes to
     16, blocks of 8, 24, .. to 8.
   - No call is made from a signal handler, or from the forked child of a process with threads.

   What a call writes to may be uninitialized before. Several threads may call at once, each with
   memory of its own to write to: the library has no state. A call takes at most 16 KiB of stack,
   whatever the length of what it reads (tested: callers/c/tests/stack.c).

   PEP440_NO_ROOM: there is a result, and it needs more than the buffer has. It is not written; each
   call below says what is.
   PEP440_OUT_OF_MEMORY: malloc or realloc failed; the same call may be made again.
   With any status but PEP440_OK and PEP440_NO_ROOM nothing is written, except `index` of the
   batches with PEP440_INVALID_VERSION. */
#ifndef PEP440_H
#define PEP440_H

#include <stddef.h>
#include <stdint.h>
#include <string.h>

#ifdef __cplusplus
extern "C" {
#endif

/* Calls that are part of the header, and not of the library. */
#if defined(__cplusplus) || (defined(__STDC_VERSION__) && __STDC_VERSION__ >= 199901L)
#define PEP440_INLINE static inline
#elif defined(__GNUC__)
#define PEP440_INLINE static __inline__
#else
#define PEP440_INLINE static
#endif

/* The version of this header, a byte for each number. */
#define PEP440_VERSION 0x000300
#define PEP440_VERSION_TEXT "0.3.0"

/* The version of the library, as PEP440_VERSION. With the library of another soname nothing is
   promised. */
uint32_t pep440_version_of_library(void);

/* PEP440_INVALID_LIST: bytes are no list of specifiers, or no single one, or an operator and a
   version make none. PEP440_NUMBER_AT_MAX is only of a range: a bound would need a number above
   18446744073709551615. */
enum {
    PEP440_OK = 0,
    PEP440_INVALID_VERSION = 1, /* bytes are no version; of pep440_compare the left ones */
    PEP440_INVALID_LIST = 2,
    PEP440_OUT_OF_MEMORY = 3,
    PEP440_NO_ROOM = 4,
    PEP440_NUMBER_AT_MAX = 5,
    PEP440_INVALID_RIGHT = 6,  /* the right bytes are no version, of pep440_compare, or no list */
    PEP440_NOT_PACKED = 7,     /* only of pep440_word: the version has no word */
    PEP440_INVALID_CHANGE = 8, /* only of pep440_edit: a change is none, or cannot be made */
    PEP440_INVALID_KIND = 9,   /* only of pep440_error: `kind` is none of PEP440_A_VERSION.. */
    PEP440_NONE_FOUND = 10,    /* only of pep440_newest: the list matches no string of the batch */
    PEP440_NO_SET = 12,        /* only of calls on sets: a list has `===`, or no string denotes it */
    PEP440_NO_LIST = 13        /* bytes are a set by itself, and the call needs members */
};

/* A version of a batch, or a change of pep440_edit. */
typedef struct {
    const uint8_t *bytes;
    size_t length;
} pep440_string;

/* Writes the normalized form of a version, as `1.0a2` of ` V1.0-Alpha.2`, at the start of `out`,
   which has `size` bytes, and its length to `written`. With PEP440_NO_ROOM `written` is the length
   that `out` must have, and `out` is unchanged: so a first call with null and a size of 0 asks for
   the length. */
uint8_t pep440_normalize(const uint8_t *version, size_t length, uint8_t *out, size_t size,
                         size_t *written);

/* The same of a list of specifiers, as `>=1.16, <2.0` of `<2.0,>=1.16`: sorted by version, equal
   versions in the order given. The empty string is a list, too, which contains each version. */
uint8_t pep440_normalize_list(const uint8_t *list, size_t length, uint8_t *out, size_t size,
                              size_t *written);

/* Writes operator and version of each specifier of a list, as pep440_normalize_list prints them and
   in that order, as `>=`, `1.16`, `!=`, `1.5.*`, one string after the other, at the start of `out`,
   and to `ends` where each of them ends, counted from the start of `out`; to `written` how many
   bytes they are, and to `count` how many strings, two for each specifier. With PEP440_NO_ROOM
   (`size` is less than the bytes, or `ends_size` less than the strings) `written` and `count` are
   written, and `out` and `ends` are unchanged. */
uint8_t pep440_specifiers_of(const uint8_t *list, size_t length, uint8_t *out, size_t size,
                             size_t *ends, size_t ends_size, size_t *written, size_t *count);

/* Writes the specifier of an operator and a version, as `>=1.16`, as pep440_normalize_list prints
   it; `out` and `written` as for pep440_normalize. For `==` and `!=` the version may end with `.*`.
   The operator is parsed first, and no blank stands beside it. PEP440_INVALID_LIST if it is none of
   `==`, `!=`, `<=`, `>=`, `<`, `>`, `~=` and `===`, or does not go with the version: `.*` with
   another operator, a local part with another one than `==`, `!=` and `===`, `~=` with a single
   release number. PEP440_INVALID_VERSION if `version` is no version, with `.*` or without. */
uint8_t pep440_specifier(const uint8_t *operator_string, size_t operator_length,
                         const uint8_t *version, size_t length, uint8_t *out, size_t size,
                         size_t *written);

/* Writes the normalized form of the version of a pattern, as `1.5` of `1.5.*` and of `1.5`, and to
   `star` whether `.*` follows it, 1 or 0; `out` and `written` as for pep440_normalize. With
   PEP440_NO_ROOM `star` is written too. PEP440_INVALID_VERSION if it is no version, or `.*` follows
   more than epoch and release, as in `1.0a1.*`. */
uint8_t pep440_pattern(const uint8_t *pattern, size_t length, uint8_t *out, size_t size,
                       size_t *written, uint8_t *star);

/* Writes the version that the changes make of a version, applied in order, as `1.0a1.post2` of
   `1.0a1` and `post=2`; `out` and `written` as for pep440_normalize. A change is `release=` and
   numbers with dots between them; `epoch=` and a number; `pre=` and `a`, `b` or `rc` with a number;
   `post=`, `dev=`, `min=` or `max=` and a number; `local=` and segments with dots between them;
   `only-release`; or `without-local`. After `=` nothing stands for none, but for the epoch. `min`
   and `max` are the sentinels that pep440_ranges names; they are written after the version, `~min0`
   and then `~max0`. With no changes the version is written.

   The version is parsed first, then all changes, and then they are applied. PEP440_INVALID_CHANGE
   if one is none of these, or cannot be applied to the version that those before it made: a release
   needs a number, `min` goes with neither a pre-release nor a developmental part, `max` with
   neither a post-release nor a developmental part. pep440_edit_error writes which one. */
uint8_t pep440_edit(const uint8_t *version, size_t length, const pep440_string *changes,
                    size_t count, uint8_t *out, size_t size, size_t *written);

/* Writes why pep440_edit of the same version and changes writes nothing, in words, and 0 bytes if
   it writes a version: why the string is no version, as pep440_version_error, or the number of the
   change, the first one being 1, and why, as `change 2: not a change`; `out` and `written` as for
   pep440_normalize. */
uint8_t pep440_edit_error(const uint8_t *version, size_t length, const pep440_string *changes,
                          size_t count, uint8_t *out, size_t size, size_t *written);

/* What bytes were to be. */
enum { PEP440_A_VERSION = 0, PEP440_A_PATTERN = 1, PEP440_A_SPECIFIER = 2, PEP440_A_LIST = 3 };

/* Writes why bytes are no version, no pattern (as `1.5.*` or `1.5`), no single specifier (as
   `>=1.16`) or no list of specifiers, by what `kind` says they were to be, in words, of a list in
   lines; and 0 bytes if they are one. `out` and `written` as for pep440_normalize.
   PEP440_INVALID_KIND if `kind` is none of these. */
uint8_t pep440_error(uint8_t kind, const uint8_t *bytes, size_t length, uint8_t *out, size_t size,
                     size_t *written);

/* The same of each, as part of the header. */
PEP440_INLINE uint8_t pep440_version_error(const uint8_t *version, size_t length, uint8_t *out,
                                           size_t size, size_t *written)
{
    return pep440_error(PEP440_A_VERSION, version, length, out, size, written);
}

PEP440_INLINE uint8_t pep440_pattern_error(const uint8_t *pattern, size_t length, uint8_t *out,
                                           size_t size, size_t *written)
{
    return pep440_error(PEP440_A_PATTERN, pattern, length, out, size, written);
}

PEP440_INLINE uint8_t pep440_specifier_error(const uint8_t *specifier, size_t length, uint8_t *out,
                                             size_t size, size_t *written)
{
    return pep440_error(PEP440_A_SPECIFIER, specifier, length, out, size, written);
}

PEP440_INLINE uint8_t pep440_list_error(const uint8_t *list, size_t length, uint8_t *out,
                                        size_t size, size_t *written)
{
    return pep440_error(PEP440_A_LIST, list, length, out, size, written);
}

/* Writes to `order` whether the left version is below the right one (-1), equal to it (0) or above
   it (1). PEP440_INVALID_RIGHT if only the right one is invalid. Compiled bytes are read as they lie,
   also beside a string: changed ones may give any order (below). */
uint8_t pep440_compare(const uint8_t *left, size_t left_length, const uint8_t *right,
                       size_t right_length, int8_t *order);

/* ---- two rules of matching

   PEP 440, "Exclusive ordered comparison", is read in two ways. By today's rule, which pip 26 and
   `packaging` 26 follow, `<V` leaves out the pre-releases of V, and `>V` the post-releases of V.
   The ported crate, pep440_rs 0.7.3, leaves out the ones of every version of V's release: so
   `<1.0.post1` does not contain `1.0rc1`, and `>1.0rc1` not `1.0.post1`, which today's rule
   matches. What a list contains by the crate's rule, it matches by today's. A string and both
   formats of its compiled form give one result:

   call                                       rule          pre-releases
   pep440_contains                            the crate's   contained, and reported
   pep440_ranges, pep440_range_bounds         the crate's   contained
   pep440_release_range_bounds                the crate's   only releases count
   pep440_allows                              today's       by `prereleases`
   pep440_filter                              today's       matched, with their own mark
   pep440_newest                              today's       if asked for, or nothing else matches
   pep440_version_in, pep440_boundaries       today's       matched
   pep440_complement, pep440_intersection,
   pep440_union, pep440_is_subset             today's       matched

   By no rule of matching go pep440_any_prerelease, pep440_requests_prereleases and the calls that
   print or compile a list. */

/* Writes to `contained` whether the list contains the version, 1 or 0: whether each of its
   specifiers does; and to `prerelease` whether the version is a pre-release or a developmental
   release, 1 or 0, contained or not. Pre-releases are versions like others here: `>=1.0` contains
   `2.0rc1`.
   If both are invalid PEP440_INVALID_LIST is returned; of two compiled forms, either. */
uint8_t pep440_contains(const uint8_t *list, size_t list_length, const uint8_t *version,
                        size_t length, uint8_t *contained, uint8_t *prerelease);

/* Which pre-releases and developmental releases pep440_allows allows: none; all; or all if the list
   asks for them, as it does if a specifier with another operator than `!=` has such a version. */
enum { PEP440_NO_PRERELEASES = 0, PEP440_ALL_PRERELEASES = 1, PEP440_ASKED_PRERELEASES = 2 };

/* Writes to `allowed` whether the list allows the version, 1 or 0: whether each of its specifiers
   matches it, and it is neither a pre-release nor a developmental release unless `prereleases`
   allows these (PEP 440, "Handling of pre-releases"); any other number is as
   PEP440_ASKED_PRERELEASES. By that `>=1.0` does not allow `2.0rc1`, `>=1.0,!=1.5rc1` neither, and
   `>=1.0rc1` does. SpecifierSet.contains of `packaging` allows all by default from 26.0 on, and
   before those that are asked for. A set by itself (below) allows versions in it in the same way, but
   has no list that asks: PEP440_NO_LIST if `prereleases` is neither of the first two. If both are
   invalid PEP440_INVALID_LIST is returned; of a set by itself or of two compiled forms, either. */
uint8_t pep440_allows(const uint8_t *list, size_t list_length, const uint8_t *version,
                      size_t length, uint8_t prereleases, uint8_t *allowed);

/* Writes to `any` whether the version of some specifier of the list is a pre-release or a
   developmental release, 1 or 0: of any operator, also `!=`, which `packaging` does not count. */
uint8_t pep440_any_prerelease(const uint8_t *list, size_t length, uint8_t *any);

/* Writes to `requests` whether the list asks for pre-releases, 1 or 0, as `prereleases` of `packaging`:
   whether some specifier with another operator than `!=` has a version that is one, or a
   developmental release. pep440_allows goes by it if `prereleases` is PEP440_ASKED_PRERELEASES. */
uint8_t pep440_requests_prereleases(const uint8_t *list, size_t length, uint8_t *requests);

/* Writes a version that the list matches, as `1.16` of `>=1.16`, and 0 bytes if it matches none, as
   `>1, <1`; `out` and `written` as for pep440_normalize. So with null and a size of 0
   PEP440_NO_ROOM means that there is a version, and PEP440_OK that there is none. It is the least
   one if there is a least, pre-releases and local versions among them: `0.dev0` of the empty list.
   To know whether two lists have a version in common, join their strings with a comma (if one is
   empty, ask the other). PEP440_NO_LIST of a set by itself (below). */
uint8_t pep440_version_in(const uint8_t *list, size_t length, uint8_t *out, size_t size,
                          size_t *written);

/* The kind of a pre-release. */
enum { PEP440_NO_PRE = 0, PEP440_ALPHA = 1, PEP440_BETA = 2, PEP440_RC = 3 };

/* The numbers of a version, 0 if it has no such part. */
typedef struct {
    uint64_t epoch;
    uint64_t pre;
    uint64_t post;
    uint64_t dev;
    size_t release_length; /* how many numbers the release has, at least 1 */
    uint8_t pre_kind;
    uint8_t has_post; /* 1 or 0, as the next two */
    uint8_t has_dev;
    uint8_t has_local;
} pep440_parts;

/* Writes the parts of a version, and the numbers of its release at the start of `release`, which
   has room for `size` numbers. With PEP440_NO_ROOM `parts` is written, with the `release_length`
   that is needed, and `release` is unchanged. */
uint8_t pep440_parts_of(const uint8_t *version, size_t length, pep440_parts *parts,
                        uint64_t *release, size_t size);

/* Writes the sort key of a version; `out` and `written` as for pep440_normalize. Keys compared byte
   by byte (memcmp, then the shorter one first) have the order of their versions, and are equal
   exactly if the versions are. No key is a prefix of another one, so a key may be followed by other
   bytes in an index, and these count only between equal versions. A key may be stored and compared
   by whatever compares bytes: the key of a version is the same in each release. It cannot be parsed
   back, so store the version beside it. */
uint8_t pep440_sort_key(const uint8_t *version, size_t length, uint8_t *out, size_t size,
                        size_t *written);

/* Writes the word of a version: as numbers words have the order of their versions, and are equal
   exactly if the versions are. PEP440_NOT_PACKED if the version has none. It has one if its epoch
   is 0, it has no local part, its release has at most four numbers, the first at most 65535 and the
   others at most 255, and it has at most one of a pre-release, a post-release and a developmental
   part, whose number is at most 2097151. A word may be stored, as a sort key may; words and sort
   keys are not compared with each other. */
uint8_t pep440_word(const uint8_t *version, size_t length, uint64_t *word);

/* Writes the range of the list: its segments in ascending order, a line each, each line with a
   newline at its end; the one line `empty` if there are none. `out` and `written` as for
   pep440_normalize. A line is `[1.0, 1.5)`: two bounds, each beside a square bracket if it is in
   the segment, or a round one if it is not. `*` is no bound, as in `(*, 2.0]`. A bound may have a
   sentinel after its version, which no string of a version has: `2.0~min0` lies below each version
   of release 2.0, `2.0.dev0` too, as in `[1.0, 2.0~min0)` of `>=1.0,<2.0`; `1.0~max0` lies above
   each post-release and local version of `1.0`, and below `1.0.1`, as in `(1.0~max0, *)` of `>1.0`.

   A range goes by the order of versions, so it is not always what pep440_contains matches: `<=1.0`
   contains `1.0+cu1`, which its range ends below, and `===1.0` does not contain `1.0.0`, which its
   range has. docs/PROMISES.md, "Conversions into ranges", says when both agree.

   PEP440_NUMBER_AT_MAX if a bound would need a number above 18446744073709551615, as the end of
   `==18446744073709551615.*`. */
uint8_t pep440_ranges(const uint8_t *list, size_t length, uint8_t *out, size_t size,
                      size_t *written);

/* Writes the set of a list, which is exactly what it matches by today's rule, or a set by itself
   (below): sort keys, two for each interval in ascending order, one after the other, at the start
   of `out`, and to `ends` where each of them ends, counted from the start of `out`; to `written`
   how many bytes they are, and to `count` how many keys. The list matches a version exactly if the
   sort key of the version is at least the first and below the second key of an interval, compared
   as pep440_sort_key says, local versions and pre-releases too: so an index over stored keys finds
   the versions of a list, and none need be asked again. A key of no bytes is no bound: of the
   first each key is at least that, of the second leave out the comparison. The keys are not always
   sort keys of versions. With PEP440_NO_ROOM (`size` is less than the bytes, or `ends_size` less
   than the keys) `written` and `count` are written, and `out` and `ends` are unchanged.
   PEP440_NO_SET if the list has `===`, which compares how versions are written; with `==` in its
   place the set has what the list matches, and equal versions. */
uint8_t pep440_boundaries(const uint8_t *list, size_t length, uint8_t *out, size_t size,
                          size_t *ends, size_t ends_size, size_t *written, size_t *count);

/* Writes the set of the versions that are not in a set, in both of two sets, or in one of them, as a
   set by itself; `out` and `written` as for pep440_normalize. Each set that is passed belongs to a
   list, as pep440_boundaries has it, as a string or as a compiled form, or a set by itself (below).
   PEP440_NO_SET if a list has `===`, or a member of a compiled one is such that no string denotes
   it. PEP440_INVALID_LIST and PEP440_INVALID_RIGHT if bytes are neither. */
uint8_t pep440_complement(const uint8_t *set, size_t length, uint8_t *out, size_t size,
                          size_t *written);
uint8_t pep440_intersection(const uint8_t *left, size_t left_length, const uint8_t *right,
                            size_t right_length, uint8_t *out, size_t size, size_t *written);
uint8_t pep440_union(const uint8_t *left, size_t left_length, const uint8_t *right,
                     size_t right_length, uint8_t *out, size_t size, size_t *written);

/* Writes to `inside` whether each version of the left set is in the right one, 1 or 0; sets and
   errors as of pep440_union. So `<0.dev0`, which matches nothing, has each set in it that has no
   version. */
uint8_t pep440_is_subset(const uint8_t *left, size_t left_length, const uint8_t *right,
                         size_t right_length, uint8_t *inside);

/* The first byte of a bound: there is none; or its version is in the segment, or is not. */
enum { PEP440_NO_BOUND = 0, PEP440_INCLUDED = 1, PEP440_EXCLUDED = 2 };

/* Writes the range of the list as bounds, two for each segment in ascending order, as
   pep440_boundaries writes keys; to `count` how many bounds there are. A bound is just
   PEP440_NO_BOUND, or PEP440_INCLUDED or PEP440_EXCLUDED and then bytes of its version as in
   compiled form (below), its sentinel among them. So the bounds of `>=1.0,<2.0` are PEP440_INCLUDED
   and the compiled form of `1.0`, and PEP440_EXCLUDED and the bytes of `2.0~min0`. Such bytes with
   a sentinel are no compiled version, though they are ordered as those are. */
uint8_t pep440_range_bounds(const uint8_t *list, size_t length, uint8_t *out, size_t size,
                            size_t *ends, size_t ends_size, size_t *written, size_t *count);

/* The same of the release-only range of the list, which is meant for versions that are just a
   release, as Python's own. Of each specifier only the operator and the release count, so no bound
   has an epoch, a suffix or a sentinel: the bounds of `>1!1.0rc1` are PEP440_EXCLUDED and the
   compiled form of `1.0`, and PEP440_NO_BOUND. */
uint8_t pep440_release_range_bounds(const uint8_t *list, size_t length, uint8_t *out, size_t size,
                                    size_t *ends, size_t ends_size, size_t *written, size_t *count);

/* ---- compiled versions and lists: bytes made once of a string, which calls take in place of it

   Compiled bytes are plain bytes: keep them in memory, in a file or in a column, copy them, share
   them among threads, give them to another process or machine. There is no handle, and nothing to
   free. Their first byte is a format, with which no string of a version or a list begins, and the
   bytes of a format never change between releases: what 0.3.0 or a later release wrote, each later
   one takes. Bytes of a format that a library does not know are an invalid version or list, as are
   formats 1, 2 and 3, which earlier libraries wrote.

   A compiled version is the byte 4, the sort key of the version, and a byte 1 for each zero that
   ends its release, which is all that a sort key leaves out. A sort key ends with a byte 0. So
   versions are ordered as the sort keys in their bytes are, two versions are equal exactly if their
   sort keys are, and a hash of a sort key is one of the version. `1.0` takes 10 bytes,
   `2024.10.20240101` 17, and no version more than PEP440_COMPILED_BOUND of the length of its
   string.

   A compiled list has format 6: the byte 6, how many bytes its set takes, the set, and its members.
   The set is of each interval that pep440_boundaries writes the low key and the high key, each
   after how many bytes it takes: a number is a byte that says how many bytes follow, and these, the
   greatest first, none for 0, as in sort keys. The members are the byte 5, and of each specifier 16
   and the number of its operator (below), and then its version without the byte 4. A list with
   `===` has no set, and format 5: just the members. Of a list no size suffices by its length: ask
   for it, with null and a size of 0. `>=1.0, <2.0` takes 44 bytes.

   A set by itself has format 7: the byte 7, and its keys as in a list of format 6. The calls on sets
   write and take it, and pep440_allows takes it; all others that take a list return PEP440_NO_LIST,
   but for pep440_error, which writes why it is none.

   Lists without `===` may have format 5, too, as the Rust crate makes them. Every call takes them, but
   pep440_allows then costs what it does of a string; pep440_compile_list writes format 6 of them.

   Bytes denote at most one version or one list, and two strings have the same compiled bytes
   exactly if they have the same normal form: `1.0` and ` v1.0` have the same bytes, and `1.0.0` has
   others, though the versions are equal. Bytes that pep440_compile_list did not write may denote, in
   format 5, a list that no string denotes, as `>=1.0+a`, but each version in them is one of a
   string.

   Bytes are never read beyond their length, whether they are compiled, cut, changed or chosen by an
   attacker. pep440_compare, pep440_contains and pep440_requests_prereleases of a compiled list, and
   pep440_allows and the calls on sets of formats 6 and 7 read them as they lie: of bytes that begin
   as a compiled form and are none they write any result, or return the status of an invalid one.
   The first four allocate nothing then, nor for a version that is a string in normal form whose
   compiled form has at most 64 bytes, of which pep440_compare also takes two. All other calls reject
   such bytes. So give bytes of unknown origin to pep440_normalize or pep440_normalize_list once. No
   call tests a set by itself: make it anew of lists. */

/* How many bytes suffice, by the length of a string: for the normal form of a version, for its sort
   key, and for its compiled form. A list's may be longer: ask for it, as said above. */
#define PEP440_NORMAL_BOUND(length) (9 + (size_t)(length))
#define PEP440_SORT_KEY_BOUND(length) (7 + 3 * (size_t)(length) / 2)
#define PEP440_COMPILED_BOUND(length) (10 + 3 * (size_t)(length))

/* Writes the compiled form of a version; `out` and `written` as for pep440_normalize. */
uint8_t pep440_compile(const uint8_t *version, size_t length, uint8_t *out, size_t size,
                       size_t *written);

/* Writes the compiled form of a list of specifiers; `out` and `written` as for pep440_normalize. */
uint8_t pep440_compile_list(const uint8_t *list, size_t length, uint8_t *out, size_t size,
                            size_t *written);

/* Writes the compiled form of the list of one specifier, as `>=1.16`; `out` and `written` as for
   pep440_normalize. PEP440_INVALID_LIST if the string is no specifier, as the empty string and
   `>=1.16,<2.0`. */
uint8_t pep440_compile_specifier(const uint8_t *specifier, size_t length, uint8_t *out, size_t size,
                                 size_t *written);

/* The operators; in compiled lists 16 is added to their numbers. The star forms are `==` and `!=`
   with a version and `.*`. */
enum {
    PEP440_EQUAL = 0,
    PEP440_EQUAL_STAR = 1,
    PEP440_EXACT_EQUAL = 2,
    PEP440_NOT_EQUAL = 3,
    PEP440_NOT_EQUAL_STAR = 4,
    PEP440_COMPATIBLE = 5,
    PEP440_LESS = 6,
    PEP440_LESS_EQUAL = 7,
    PEP440_GREATER = 8,
    PEP440_GREATER_EQUAL = 9
};

/* Writes why an operator of these and a version make no specifier, in words, and 0 bytes if they
   do; `out` and `written` as for pep440_normalize. Unless `star` is 0, `.*` follows the version,
   which goes only with PEP440_EQUAL and PEP440_NOT_EQUAL. PEP440_INVALID_LIST if the number is no
   operator's. */
uint8_t pep440_build_error(uint8_t operator_number, const uint8_t *version, size_t length,
                           uint8_t star, uint8_t *out, size_t size, size_t *written);

/* ---- batches: many strings in one call */

/* The mark of a string of a filter; the last is a match that is a pre-release or a developmental
   release. */
enum {
    PEP440_NO_MATCH = 0,
    PEP440_MATCH = 1,
    PEP440_NOT_A_VERSION = 2,
    PEP440_PRERELEASE_MATCH = 3
};

/* Writes a mark for each string, in order: whether the list matches its version, and whether this
   is then a pre-release or a developmental release, or that it is no version. PEP440_NO_ROOM if
   `size` is less than `count`; then nothing is written. PEP440_NO_LIST of a set by itself. */
uint8_t pep440_filter(const uint8_t *list, size_t list_length, const pep440_string *strings,
                      size_t count, uint8_t *marks, size_t size);

/* Writes to `index` which string, from 0, is the newest version that the list matches, of equal
   ones the first. Strings that are no version are passed over. Pre-releases and developmental
   releases count only if the list asks for them, as for pep440_allows, or matches nothing else of
   the batch (PEP 440, "Handling of pre-releases"). PEP440_NONE_FOUND if it matches nothing at
   all; then nothing is written. Whatever `count`, it allocates for the list and two versions.
   PEP440_NO_LIST of a set by itself. */
uint8_t pep440_newest(const uint8_t *list, size_t list_length, const pep440_string *strings,
                      size_t count, size_t *index);

/* Writes the indices of the strings, from 0, in the order of their versions; equal ones in the
   order given. With PEP440_INVALID_VERSION only `index` is written, the index of the first string
   that is no version. PEP440_NO_ROOM if all are versions and `size` is less than `count`; then
   nothing is written. */
uint8_t pep440_sort(const pep440_string *strings, size_t count, size_t *indices, size_t size,
                    size_t *index);

/* Writes the sort keys of the strings, one after the other, at the start of `out`, and to `ends`
   where each of them ends, counted from the start of `out`; to `written` how many bytes they are.
   `index` as for pep440_sort. With PEP440_NO_ROOM (`size` is less than that, or `ends_size` less
   than `count`) `written` is written, and `out` and `ends` are unchanged. */
uint8_t pep440_sort_keys(const pep440_string *strings, size_t count, uint8_t *out, size_t size,
                         size_t *ends, size_t ends_size, size_t *written, size_t *index);

/* As pep440_sort_keys, of compiled forms. */
uint8_t pep440_compile_all(const pep440_string *strings, size_t count, uint8_t *out, size_t size,
                           size_t *ends, size_t ends_size, size_t *written, size_t *index);

/* ---- strings with a zero at their end

   The calls that programs make most, over `const char *`. A compiled form has zero bytes, so they
   do not take one. */

/* What a status says, in words. */
PEP440_INLINE const char *pep440_status_text(uint8_t status)
{
    switch (status) {
    case PEP440_OK:
        return "ok";
    case PEP440_INVALID_VERSION:
        return "not a version";
    case PEP440_INVALID_LIST:
        return "not a list of specifiers, or not a specifier";
    case PEP440_OUT_OF_MEMORY:
        return "out of memory";
    case PEP440_NO_ROOM:
        return "the buffer is too small";
    case PEP440_NUMBER_AT_MAX:
        return "a bound needs a number above 18446744073709551615";
    case PEP440_INVALID_RIGHT:
        return "the right one is invalid";
    case PEP440_NOT_PACKED:
        return "the version has no word";
    case PEP440_INVALID_CHANGE:
        return "a change cannot be made";
    case PEP440_INVALID_KIND:
        return "not a kind of bytes";
    case PEP440_NONE_FOUND:
        return "no version is matched";
    case PEP440_NO_SET:
        return "a list with === has no set";
    case PEP440_NO_LIST:
        return "a set by itself has no list";
    default:
        return "unknown status";
    }
}

/* A version of a batch, or a change. */
PEP440_INLINE pep440_string pep440_string_of(const char *text)
{
    pep440_string string;
    string.bytes = (const uint8_t *)text;
    string.length = strlen(text);
    return string;
}

PEP440_INLINE uint8_t pep440_compare_strings(const char *left, const char *right, int8_t *order)
{
    return pep440_compare((const uint8_t *)left, strlen(left), (const uint8_t *)right,
                          strlen(right), order);
}

PEP440_INLINE uint8_t pep440_contains_string(const char *list, const char *version,
                                             uint8_t *contained, uint8_t *prerelease)
{
    return pep440_contains((const uint8_t *)list, strlen(list), (const uint8_t *)version,
                           strlen(version), contained, prerelease);
}

/* Writes a zero after the normalized form, and not its length. */
PEP440_INLINE uint8_t pep440_normalize_string(const char *version, char *out, size_t size)
{
    size_t written;
    uint8_t status = pep440_normalize((const uint8_t *)version, strlen(version), (uint8_t *)out,
                                      size ? size - 1 : 0, &written);
    if (status == PEP440_OK)
        out[written] = 0;
    return status;
}

PEP440_INLINE uint8_t pep440_sort_key_string(const char *version, uint8_t *out, size_t size,
                                         size_t *written)
{
    return pep440_sort_key((const uint8_t *)version, strlen(version), out, size, written);
}

PEP440_INLINE uint8_t pep440_compile_string(const char *version, uint8_t *out, size_t size,
                                            size_t *written)
{
    return pep440_compile((const uint8_t *)version, strlen(version), out, size, written);
}

PEP440_INLINE uint8_t pep440_compile_list_string(const char *list, uint8_t *out, size_t size,
                                                 size_t *written)
{
    return pep440_compile_list((const uint8_t *)list, strlen(list), out, size, written);
}

#ifdef __cplusplus
}
#endif

#endif
