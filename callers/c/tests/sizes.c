/* Each call with strings, compiled forms, lists and batches of many sizes, and buffers that are big enough: with memory there it must return
   PEP440_OK. No form of a version is longer than its bound by the length of the string. */
#include <stdio.h>
#include <stdlib.h>
#include <string.h>

#include "pep440.h"

#define GREATEST 70000
#define PARSED(string) (string).bytes, (string).length
#define TEXT(text) (const uint8_t *)(text), sizeof(text) - 1
#define OUT out, sizeof out, &written
#define KEYS out, sizeof out, ends, sizeof ends / sizeof *ends, &written, &count

static uint8_t out[1 << 23], marks[GREATEST];
static size_t ends[2 * GREATEST + 4], written, count, at;
static uint64_t release[GREATEST + 2], word;
static pep440_parts parts;
static int8_t order;
static uint8_t is, early;
static pep440_string batch[GREATEST], forms[GREATEST], mixed[GREATEST];

static size_t calls, failed;

static void check(uint8_t status, const char *call, const char *part, size_t size)
{
    calls++;
    if (status == PEP440_OK)
        return;
    failed++;
    printf("%.*s returns %d for %zu of `%s`\n", (int)strcspn(call, "("), call, status, size, part);
}

#define CHECK(call) check(call, #call, part, size)

/* BEFORE, so many copies of PART with their numbers for a %zu, and BEHIND. */
static pep440_string repeat(const char *before, const char *part, const char *behind, size_t size)
{
    char *text = malloc(strlen(before) + size * (strlen(part) + 8) + strlen(behind) + 1), *end = text + sprintf(text, "%s", before);
    for (size_t number = 0; number < size; number++)
        end += sprintf(end, part, number);
    end += sprintf(end, "%s", behind);
    return (pep440_string){(uint8_t *)text, end - text};
}

/* What is written, in memory of its own. */
static pep440_string keep(void)
{
    uint8_t *bytes = malloc(written + 1);
    memcpy(bytes, out, written);
    return (pep440_string){bytes, written};
}

static void drop(pep440_string string) { free((void *)string.bytes); }

/* The compiled form, of a version no longer than the header says. */
static pep440_string compile(uint8_t (*compiles)(const uint8_t *, size_t, uint8_t *, size_t, size_t *), pep440_string string, const char *part, size_t size)
{
    check(compiles(PARSED(string), OUT), "compile", part, size);
    check(compiles == pep440_compile && written > PEP440_COMPILED_BOUND(string.length), "PEP440_COMPILED_BOUND", part, size);
    return keep();
}

/* A version, as a string or as its compiled form. */
static void of_either(pep440_string version, const char *part, size_t size)
{
    static const pep440_string change = {TEXT("post=2")};
    CHECK(pep440_normalize(PARSED(version), OUT));
    CHECK(pep440_error(PEP440_A_VERSION, PARSED(version), OUT));
    CHECK(pep440_parts_of(PARSED(version), &parts, release, GREATEST + 2));
    CHECK(pep440_sort_key(PARSED(version), OUT));
    CHECK(pep440_build_error(PEP440_LESS, PARSED(version), 0, OUT));
    CHECK(pep440_edit(PARSED(version), &change, 1, OUT));
    CHECK(pep440_compile(PARSED(version), OUT));
    uint8_t status = pep440_word(PARSED(version), &word);
    check(status == PEP440_NOT_PACKED ? PEP440_OK : status, "pep440_word", part, size);
}

/* Both of a version, beside both. */
static void of_pair(pep440_string version, pep440_string other, pep440_string specifier, pep440_string few, const char *part, size_t size)
{
    CHECK(pep440_compare(PARSED(version), PARSED(other), &order));
    CHECK(pep440_contains(PARSED(specifier), PARSED(version), &is, &early));
    CHECK(pep440_contains(PARSED(few), PARSED(version), &is, &early));
    CHECK(pep440_allows(PARSED(specifier), PARSED(version), PEP440_ALL_PRERELEASES, &is));
    CHECK(pep440_allows(PARSED(few), PARSED(version), PEP440_ALL_PRERELEASES, &is));
}

/* Of a version: release numbers, digits, local segments, bytes of one. */
static void of_versions(const char *before, const char *part, size_t size)
{
    pep440_string version = repeat(before, part, "", size), invalid = repeat(before, part, "!", size), few = {TEXT(">=0,!=0.5")};
    pep440_string specifier = repeat("===", (const char *)version.bytes, "", 1);
    pep440_string compiled = compile(pep440_compile, version, part, size), only = compile(pep440_compile_specifier, specifier, part, size);
    pep440_string compiled_few = compile(pep440_compile_list, few, part, size);
    CHECK(pep440_normalize(PARSED(version), OUT));
    check(written > PEP440_NORMAL_BOUND(version.length), "PEP440_NORMAL_BOUND", part, size);
    CHECK(pep440_sort_key(PARSED(version), OUT));
    check(written > PEP440_SORT_KEY_BOUND(version.length), "PEP440_SORT_KEY_BOUND", part, size);
    CHECK(pep440_error(PEP440_A_VERSION, PARSED(invalid), OUT));
    CHECK(pep440_pattern(PARSED(version), OUT, &is));
    CHECK(pep440_error(PEP440_A_PATTERN, PARSED(invalid), OUT));
    CHECK(pep440_specifier(TEXT("==="), PARSED(version), OUT));
    CHECK(pep440_error(PEP440_A_SPECIFIER, PARSED(invalid), OUT));
    CHECK(pep440_compile_specifier(PARSED(specifier), OUT));
    of_either(version, part, size);
    of_either(compiled, part, size);
    of_pair(version, version, specifier, few, part, size);
    of_pair(version, compiled, only, compiled_few, part, size);
    of_pair(compiled, version, specifier, few, part, size);
    of_pair(compiled, compiled, only, compiled_few, part, size);
    drop(version), drop(invalid), drop(specifier), drop(compiled), drop(only), drop(compiled_few);
}

/* A list, as a string or as its compiled form: asked of a version without a local part, and of one with. */
static void of_either_list(pep440_string list, const char *part, size_t size)
{
    static const pep440_string versions[] = {{TEXT("0.5")}, {TEXT("0.5+a")}};
    CHECK(pep440_normalize_list(PARSED(list), OUT));
    CHECK(pep440_any_prerelease(PARSED(list), &is));
    CHECK(pep440_requests_prereleases(PARSED(list), &is));
    CHECK(pep440_specifiers_of(PARSED(list), KEYS));
    CHECK(pep440_compile_list(PARSED(list), OUT));
    CHECK(pep440_version_in(PARSED(list), OUT));
    CHECK(pep440_boundaries(PARSED(list), KEYS));
    CHECK(pep440_complement(PARSED(list), OUT));
    CHECK(pep440_intersection(PARSED(list), TEXT(">1"), OUT));
    CHECK(pep440_union(PARSED(list), TEXT(">1"), OUT));
    CHECK(pep440_is_subset(TEXT(">1"), PARSED(list), &is));
    for (int number = 0; number < 2; number++) {
        pep440_string compiled = compile(pep440_compile, versions[number], part, size);
        CHECK(pep440_contains(PARSED(list), PARSED(versions[number]), &is, &early));
        CHECK(pep440_contains(PARSED(list), PARSED(compiled), &is, &early));
        CHECK(pep440_allows(PARSED(list), PARSED(compiled), PEP440_ASKED_PRERELEASES, &is));
        CHECK(pep440_filter(PARSED(list), &versions[number], 1, marks, 1));
        CHECK(pep440_filter(PARSED(list), &compiled, 1, marks, 1));
        drop(compiled);
    }
}

static void of_lists(const char *before, const char *part, size_t size)
{
    pep440_string list = repeat(before, part, "", size), invalid = repeat(before, part, ",=", size);
    pep440_string compiled = compile(pep440_compile_list, list, part, size);
    CHECK(pep440_error(PEP440_A_LIST, PARSED(invalid), OUT));
    of_either_list(list, part, size);
    of_either_list(compiled, part, size);
    drop(list), drop(invalid), drop(compiled);
}

static void of_either_range(pep440_string list, const char *part, size_t size)
{
    CHECK(pep440_ranges(PARSED(list), OUT));
    CHECK(pep440_range_bounds(PARSED(list), KEYS));
    CHECK(pep440_release_range_bounds(PARSED(list), KEYS));
}

/* Of a list whose range has a segment for each member. */
static void of_ranges(const char *before, const char *part, size_t size)
{
    pep440_string list = repeat(before, part, "", size), compiled = compile(pep440_compile_list, list, part, size);
    of_either_range(list, part, size);
    of_either_range(compiled, part, size);
    drop(list), drop(compiled);
}

/* Of a batch: of strings, of compiled forms, and of both in turn. */
static void of_batches(const char *text, const char *part, size_t size)
{
    pep440_string list = repeat(text, "", "", 0), compiled = compile(pep440_compile_list, list, part, size), *const batches[] = {batch, forms, mixed};
    for (int number = 0; number < 3; number++) {
        CHECK(pep440_filter(PARSED(list), batches[number], size, marks, GREATEST));
        if (size > 0) /* of no versions none is the newest */
            CHECK(pep440_newest(PARSED(list), batches[number], size, &at));
        CHECK(pep440_filter(PARSED(compiled), batches[number], size, marks, GREATEST));
        CHECK(pep440_sort(batches[number], size, ends, GREATEST, &at));
        CHECK(pep440_sort_keys(batches[number], size, out, sizeof out, ends, GREATEST, &written, &at));
        CHECK(pep440_compile_all(batches[number], size, out, sizeof out, ends, GREATEST, &written, &at));
    }
    drop(list), drop(compiled);
}

/* Of changes. */
static void of_changes(const char *version, const char *part, size_t size)
{
    static pep440_string changes[GREATEST];
    for (size_t number = 0; number < size; number++)
        changes[number] = (pep440_string){(const uint8_t *)part, strlen(part)};
    CHECK(pep440_edit((const uint8_t *)version, strlen(version), changes, size, OUT));
    CHECK(pep440_edit_error((const uint8_t *)version, strlen(version), changes, size, OUT));
}

static void of_size(size_t size)
{
    of_versions("1", ".1", size);
    of_versions("1.", "0", size + 1);
    of_versions("1+a", ".%zu", size);
    of_versions("1+a", "b", size);
    of_lists(">=0", ",!=1.%zu", size);
    of_lists(">=0", ",<2.1.1.1.%zu", size);
    of_lists("<1", ",<1", size);
    if (size <= 513)
        of_ranges(">=0", ",!=1.%zu", size);
    if (size <= 16385 || size == GREATEST)
        of_batches(">=0,!=1.1", "1.%zu", size);
    of_changes("1.0", "dev=1", size);
}

int main(void)
{
    for (size_t number = 0; number < GREATEST; number++) {
        char *text = malloc(16);
        batch[number] = (pep440_string){(uint8_t *)text, sprintf(text, number % 2 ? "1.%zu" : "1.%zu+a", number * 7919 % GREATEST)};
        forms[number] = compile(pep440_compile, batch[number], "1.%zu", number);
        mixed[number] = number % 3 ? forms[number] : batch[number];
    }
    for (size_t size = 0; size <= 66; size++)
        of_size(size);
    for (size_t power = 128; power <= 65536; power *= 2)
        for (size_t size = power - 1; size <= power + 1; size++)
            of_size(size);
    of_size(GREATEST);
    if (pep440_version_of_library() != PEP440_VERSION)
        failed++;
    printf("%zu calls, %zu failed\n", calls, failed);
    return failed != 0;
}
