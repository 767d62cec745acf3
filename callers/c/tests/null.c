/* Null beside a length of 0 is an empty string, batch or buffer in each call, as the header says. The proof holds of pointers that point to
   something (docs/PROMISES.md), so this is tested of each build of the library. */
#include <stdio.h>
#include <stdlib.h>
#include <string.h>

#include "pep440.h"

/* Null, and then an address that nobody may read: neither is read if the length is 0. */
static void *none;

#define NONE none, 0
#define EMPTY (const uint8_t *)"", 0

static int wrong;

static void hold(int is_right, const char *what)
{
    if (!is_right) {
        printf("WRONG: %s\n", what);
        wrong++;
    }
}

static void strings(void)
{
    uint8_t out[128], is, early;
    int8_t order;
    size_t written, count;
    uint64_t release[4], word;
    pep440_parts parts;
    hold(pep440_normalize(NONE, out, sizeof out, &written) == PEP440_INVALID_VERSION, "normalize");
    hold(pep440_sort_key(NONE, out, sizeof out, &written) == PEP440_INVALID_VERSION, "sort_key");
    hold(pep440_word(NONE, &word) == PEP440_INVALID_VERSION, "word");
    hold(pep440_version_error(NONE, out, sizeof out, &written) == PEP440_OK && written > 0, "version_error");
    hold(pep440_parts_of(NONE, &parts, release, 4) == PEP440_INVALID_VERSION, "parts_of");
    hold(pep440_specifier(NONE, (const uint8_t *)"1", 1, out, sizeof out, &written) == PEP440_INVALID_LIST, "specifier, operator");
    hold(pep440_specifier((const uint8_t *)">=", 2, NONE, out, sizeof out, &written) == PEP440_INVALID_VERSION, "specifier, version");
    hold(pep440_pattern(NONE, out, sizeof out, &written, &is) == PEP440_INVALID_VERSION, "pattern");
    hold(pep440_edit(NONE, NONE, out, sizeof out, &written) == PEP440_INVALID_VERSION, "edit, version");
    hold(pep440_edit_error(NONE, NONE, out, sizeof out, &written) == PEP440_OK && written > 0, "edit_error, version");
    hold(pep440_pattern_error(NONE, out, sizeof out, &written) == PEP440_OK && written > 0, "pattern_error");
    hold(pep440_specifier_error(NONE, out, sizeof out, &written) == PEP440_OK && written > 0, "specifier_error");
    hold(pep440_compare(NONE, (const uint8_t *)"1", 1, &order) == PEP440_INVALID_VERSION, "compare, left");
    hold(pep440_compare((const uint8_t *)"1", 1, NONE, &order) == PEP440_INVALID_RIGHT, "compare, right");
    /* An empty list is one without a specifier, and contains each version. */
    hold(pep440_normalize_list(NONE, out, sizeof out, &written) == PEP440_OK && written == 0, "normalize_list");
    hold(pep440_list_error(NONE, out, sizeof out, &written) == PEP440_OK && written == 0, "list_error");
    hold(pep440_contains(NONE, (const uint8_t *)"1", 1, &is, &early) == PEP440_OK && is == 1 && early == 0, "contains, list");
    hold(pep440_contains(EMPTY, NONE, &is, &early) == PEP440_INVALID_VERSION, "contains, version");
    hold(pep440_allows(NONE, (const uint8_t *)"1", 1, PEP440_NO_PRERELEASES, &is) == PEP440_OK && is == 1, "allows, list");
    hold(pep440_allows(EMPTY, NONE, PEP440_NO_PRERELEASES, &is) == PEP440_INVALID_VERSION, "allows, version");
    hold(pep440_any_prerelease(NONE, &is) == PEP440_OK && is == 0, "any_prerelease");
    hold(pep440_requests_prereleases(NONE, &is) == PEP440_OK && is == 0, "requests_prereleases");
    hold(pep440_version_in(NONE, out, sizeof out, &written) == PEP440_OK && written == 6, "version_in"); /* 0.dev0 */
    hold(pep440_ranges(NONE, out, sizeof out, &written) == PEP440_OK && written == 7, "ranges");
    hold(pep440_specifiers_of(NONE, NONE, NONE, &written, &count) == PEP440_OK && written == 0 && count == 0, "specifiers_of");
    hold(pep440_range_bounds(NONE, NONE, NONE, &written, &count) == PEP440_NO_ROOM && written == 2 && count == 2, "range_bounds");
    hold(pep440_release_range_bounds(NONE, NONE, NONE, &written, &count) == PEP440_NO_ROOM && written == 2 && count == 2, "release_range_bounds");
    hold(pep440_boundaries(NONE, NONE, NONE, &written, &count) == PEP440_NO_ROOM && written == 0 && count == 2, "boundaries");
    hold(pep440_complement(NONE, out, sizeof out, &written) == PEP440_OK && written == 1, "complement");
    hold(pep440_intersection(NONE, NONE, out, sizeof out, &written) == PEP440_OK && written == 3, "intersection");
    hold(pep440_union(NONE, NONE, NONE, &written) == PEP440_NO_ROOM && written == 3, "union");
    hold(pep440_is_subset(NONE, NONE, &is) == PEP440_OK && is == 1, "is_subset");
}

static void compiled(void)
{
    static const uint8_t version[] = {4, 0, 2, 1, 0, 80, 0, 16, 0}, list[] = {6, 1, 2, 0, 0, 5}, members[] = {5};
    uint8_t out[128], is, early;
    int8_t order;
    size_t written;
    hold(pep440_compile(NONE, out, sizeof out, &written) == PEP440_INVALID_VERSION, "compile");
    hold(pep440_compile_specifier(NONE, out, sizeof out, &written) == PEP440_INVALID_LIST, "compile_specifier");
    hold(pep440_compile_list(NONE, out, sizeof out, &written) == PEP440_OK && written == sizeof list && memcmp(out, list, sizeof list) == 0, "compile_list");
    hold(pep440_build_error(PEP440_EQUAL, NONE, 0, out, sizeof out, &written) == PEP440_INVALID_VERSION, "build_error");
    hold(pep440_compare(NONE, version, sizeof version, &order) == PEP440_INVALID_VERSION, "compare with a compiled one");
    hold(pep440_compare(version, sizeof version, NONE, &order) == PEP440_INVALID_RIGHT, "compare a compiled one");
    hold(pep440_contains(NONE, version, sizeof version, &is, &early) == PEP440_OK && is == 1 && early == 0, "contains a compiled one");
    hold(pep440_contains(list, sizeof list, NONE, &is, &early) == PEP440_INVALID_VERSION, "contains, a compiled list");
    hold(pep440_allows(NONE, version, sizeof version, PEP440_NO_PRERELEASES, &is) == PEP440_OK && is == 1, "allows a compiled one");
    hold(pep440_allows(list, sizeof list, NONE, PEP440_NO_PRERELEASES, &is) == PEP440_INVALID_VERSION, "allows, a compiled list");
    hold(pep440_contains(members, sizeof members, NONE, &is, &early) == PEP440_INVALID_VERSION, "contains, a compiled list without its set");
    hold(pep440_allows(members, sizeof members, NONE, PEP440_NO_PRERELEASES, &is) == PEP440_INVALID_VERSION, "allows, a compiled list without its set");
}

static void buffers(void)
{
    size_t written;
    pep440_parts parts;
    hold(pep440_normalize((const uint8_t *)"1.0", 3, NONE, &written) == PEP440_NO_ROOM && written == 3, "normalize, no buffer");
    hold(pep440_normalize_list(EMPTY, NONE, &written) == PEP440_OK && written == 0, "normalize_list, no buffer");
    hold(pep440_compile((const uint8_t *)"1.0", 3, NONE, &written) == PEP440_NO_ROOM && written == 10, "compile, no buffer");
    hold(pep440_parts_of((const uint8_t *)"1.0", 3, &parts, NONE) == PEP440_NO_ROOM && parts.release_length == 2, "parts_of, no numbers");
}

static void batches(void)
{
    const pep440_string one[] = {{NONE}}, two[] = {{NONE}, {(const uint8_t *)"1", 1}};
    uint8_t marks[2], out[8];
    size_t indices[1], ends[1], written, index;
    hold(pep440_edit((const uint8_t *)"1", 1, NONE, out, 8, &written) == PEP440_OK && written == 1, "edit by none");
    hold(pep440_edit((const uint8_t *)"1", 1, one, 1, out, 8, &written) == PEP440_INVALID_CHANGE, "edit by null");
    hold(pep440_filter(EMPTY, NONE, NONE) == PEP440_OK, "filter of none");
    hold(pep440_newest(EMPTY, NONE, &index) == PEP440_NONE_FOUND, "newest of none");
    hold(pep440_sort(NONE, NONE, &index) == PEP440_OK, "sort of none");
    hold(pep440_filter(NONE, two, 2, marks, 2) == PEP440_OK && marks[0] == PEP440_NOT_A_VERSION && marks[1] == PEP440_MATCH, "filter, list");
    hold(pep440_sort(two + 1, 1, NONE, &index) == PEP440_NO_ROOM, "sort, no indices");
    hold(pep440_sort_keys(two + 1, 1, NONE, NONE, &written, &index) == PEP440_NO_ROOM && written == 8, "sort_keys, no buffers");
    hold(pep440_edit_error((const uint8_t *)"1", 1, one, 1, out, 8, &written) == PEP440_NO_ROOM && written > 8, "edit_error by null");
    hold(pep440_sort_keys(NONE, NONE, NONE, &written, &index) == PEP440_OK && written == 0, "sort_keys of none");
    hold(pep440_newest(NONE, two, 2, &index) == PEP440_OK && index == 1, "newest, list");
    hold(pep440_filter(EMPTY, one, 1, marks, 1) == PEP440_OK && marks[0] == PEP440_NOT_A_VERSION, "filter of null");
    hold(pep440_sort(one, 1, indices, 1, &index) == PEP440_INVALID_VERSION && index == 0, "sort of null");
    hold(pep440_sort_keys(one, 1, out, 8, ends, 1, &written, &index) == PEP440_INVALID_VERSION && index == 0, "sort_keys of null");
    hold(pep440_compile_all(NONE, NONE, NONE, &written, &index) == PEP440_OK && written == 0, "compile_all of none");
    hold(pep440_compile_all(one, 1, out, 8, ends, 1, &written, &index) == PEP440_INVALID_VERSION && index == 0, "compile_all of null");
}

int main(void)
{
    for (uintptr_t address = 0; address <= 8; address += 8) {
        none = (void *)address;
        strings();
        compiled();
        buffers();
        batches();
    }
    printf("null with length 0 is as empty in each place, %d wrong\n", wrong);
    return wrong ? EXIT_FAILURE : EXIT_SUCCESS;
}
