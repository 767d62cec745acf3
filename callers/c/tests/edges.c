/* What a call reads and writes lies between pages that nobody may read or write: at the end of its page, and at the start of it.

   Each call with strings, with compiled forms, and with one beside the other; with each size of its buffers from 0 to one more than it needs; and
   with each prefix of what it reads. It must write all of its result or nothing, and nothing beyond it. */
#define _GNU_SOURCE
#include <stdio.h>
#include <stdlib.h>
#include <string.h>
#include <sys/mman.h>

#include "pep440.h"

enum { PAGE = 4096, BIG = 256, MANY = 4 };

/* A page for each thing that a call reads or writes. */
enum { FIRST, SECOND, STRINGS, ITEMS, OUT_PAGE = ITEMS + MANY, ENDS_PAGE, SCALARS, PAGES = SCALARS + 8 };

static uint8_t *pages[PAGES];
static int is_at_end;

static void *place(int page, size_t length) { return pages[page] + (is_at_end ? PAGE - length : 0); }

/* Where a call writes what is no buffer: each on a page of its own. */
static size_t *written, *count;
static uint8_t *flag, *early;
static int8_t *order;
static uint64_t *word;
static pep440_parts *parts;

/* The same, as they are compared. */
typedef struct {
    size_t written, count;
    uint64_t word;
    uint8_t flag, early;
    int8_t order;
    pep440_parts parts;
} Scalars;

static pep440_string first, second, *strings;
static uint8_t *out;
static size_t size, *ends, ends_size, many;

#define IN first.bytes, first.length
#define OTHER second.bytes, second.length
#define OUT out, size, written
#define KEYS out, size, ends, ends_size, written, count

static uint8_t normalize(void) { return pep440_normalize(IN, OUT); }
static uint8_t version_error(void) { return pep440_version_error(IN, OUT); }
static uint8_t sort_key(void) { return pep440_sort_key(IN, OUT); }
static uint8_t compile(void) { return pep440_compile(IN, OUT); }
static uint8_t build_error(void) { return pep440_build_error(PEP440_LESS, IN, 1, OUT); }
static uint8_t take_word(void) { return pep440_word(IN, word); }
static uint8_t parts_of(void) { return pep440_parts_of(IN, parts, (uint64_t *)ends, ends_size); }
static uint8_t edit(void) { return pep440_edit(IN, strings, many, OUT); }
static uint8_t edit_error(void) { return pep440_edit_error(IN, strings, many, OUT); }
static uint8_t pattern(void) { return pep440_pattern(IN, OUT, flag); }
static uint8_t pattern_error(void) { return pep440_pattern_error(IN, OUT); }
static uint8_t specifier(void) { return pep440_specifier(IN, OTHER, OUT); }
static uint8_t specifier_error(void) { return pep440_specifier_error(IN, OUT); }
static uint8_t compile_specifier(void) { return pep440_compile_specifier(IN, OUT); }
static uint8_t normalize_list(void) { return pep440_normalize_list(IN, OUT); }
static uint8_t list_error(void) { return pep440_list_error(IN, OUT); }
static uint8_t compile_list(void) { return pep440_compile_list(IN, OUT); }
static uint8_t version_in(void) { return pep440_version_in(IN, OUT); }
static uint8_t ranges(void) { return pep440_ranges(IN, OUT); }
static uint8_t any_prerelease(void) { return pep440_any_prerelease(IN, flag); }
static uint8_t requests_prereleases(void) { return pep440_requests_prereleases(IN, flag); }
static uint8_t specifiers_of(void) { return pep440_specifiers_of(IN, KEYS); }
static uint8_t boundaries(void) { return pep440_boundaries(IN, KEYS); }
static uint8_t complement(void) { return pep440_complement(IN, OUT); }
static uint8_t intersection(void) { return pep440_intersection(IN, OTHER, OUT); }
static uint8_t unite(void) { return pep440_union(IN, OTHER, OUT); }
static uint8_t is_subset(void) { return pep440_is_subset(IN, OTHER, flag); }
static uint8_t range_bounds(void) { return pep440_range_bounds(IN, KEYS); }
static uint8_t release_range_bounds(void) { return pep440_release_range_bounds(IN, KEYS); }
static uint8_t compare(void) { return pep440_compare(IN, OTHER, order); }
static uint8_t contains(void) { return pep440_contains(IN, OTHER, flag, early); }
static uint8_t allows(void) { return pep440_allows(IN, OTHER, PEP440_ASKED_PRERELEASES, flag); }
static uint8_t allows_all(void) { return pep440_allows(IN, OTHER, PEP440_ALL_PRERELEASES, flag); }
static uint8_t filter(void) { return pep440_filter(IN, strings, many, out, size); }
static uint8_t newest(void) { return pep440_newest(IN, strings, many, count); }
static uint8_t sort(void) { return pep440_sort(strings, many, ends, ends_size, count); }
static uint8_t sort_keys(void) { return pep440_sort_keys(strings, many, out, size, ends, ends_size, written, count); }
static uint8_t compile_all(void) { return pep440_compile_all(strings, many, out, size, ends, ends_size, written, count); }

#define LONG "1!1.2.300a2.post3.dev4+ubuntu.1"
#define LIST ">=1.16, !=1.5.*, ===1.17+a, <2.0"
#define WITH_SET ">=1.16, !=1.17, <2.0"

/* The kinds of both arguments: a version or a list, each as a string and as a compiled form; or a string alone. A second one of a single
   letter is a batch (put_batch). */
static const struct {
    const char *name;
    uint8_t (*call)(void);
    const char *kinds, *first, *second;
    uint8_t wanted;
} CALLS[] = {
    {"normalize", normalize, "v", LONG, "", PEP440_OK}, {"normalize, invalid", normalize, "s", "1.0prev", "", PEP440_INVALID_VERSION},
    {"version_error", version_error, "v", LONG, "", PEP440_OK}, {"version_error, why", version_error, "s", "1.0prev", "", PEP440_OK},
    {"sort_key", sort_key, "v", LONG, "", PEP440_OK}, {"compile", compile, "v", LONG, "", PEP440_OK},
    {"build_error", build_error, "v", LONG, "", PEP440_OK}, {"word", take_word, "v", "1.2.3rc4", "", PEP440_OK},
    {"word, none", take_word, "v", LONG, "", PEP440_NOT_PACKED}, {"parts_of", parts_of, "v", LONG, "", PEP440_OK},
    {"edit", edit, "v", LONG, "c", PEP440_OK}, {"edit, invalid", edit, "v", LONG, "b", PEP440_INVALID_CHANGE},
    {"edit_error", edit_error, "v", LONG, "b", PEP440_OK}, {"pattern", pattern, "s", "1!1.2.300.*", "", PEP440_OK},
    {"pattern_error", pattern_error, "s", "1.5a1.*", "", PEP440_OK}, {"specifier", specifier, "ss", "!=", "1.5.*", PEP440_OK},
    {"specifier_error", specifier_error, "s", ">=1.0prev", "", PEP440_OK},
    {"compile_specifier", compile_specifier, "s", "===" LONG, "", PEP440_OK}, {"normalize_list", normalize_list, "l", LIST, "", PEP440_OK},
    {"list_error", list_error, "l", LIST, "", PEP440_OK}, {"list_error, why", list_error, "s", LIST ",=<1", "", PEP440_OK},
    {"compile_list", compile_list, "l", LIST, "", PEP440_OK}, {"compile_list, with its set", compile_list, "l", WITH_SET, "", PEP440_OK},
    {"version_in", version_in, "l", WITH_SET, "", PEP440_OK}, {"ranges", ranges, "l", WITH_SET, "", PEP440_OK},
    {"any_prerelease", any_prerelease, "l", LIST, "", PEP440_OK}, {"requests_prereleases", requests_prereleases, "l", LIST, "", PEP440_OK},
    {"requests_prereleases, with its set", requests_prereleases, "l", WITH_SET, "", PEP440_OK}, {"specifiers_of", specifiers_of, "l", LIST, "", PEP440_OK},
    {"boundaries", boundaries, "l", WITH_SET, "", PEP440_OK}, {"boundaries, no set", boundaries, "l", LIST, "", PEP440_NO_SET},
    {"complement", complement, "l", WITH_SET, "", PEP440_OK}, {"intersection", intersection, "ll", WITH_SET, "<1.5", PEP440_OK},
    {"union", unite, "ll", WITH_SET, "<1.5", PEP440_OK}, {"union, no set", unite, "ll", WITH_SET, LIST, PEP440_NO_SET},
    {"is_subset", is_subset, "ll", WITH_SET, "<1.5", PEP440_OK}, {"range_bounds", range_bounds, "l", WITH_SET, "", PEP440_OK},
    {"range_bounds, at max", range_bounds, "l", "==18446744073709551615.*", "", PEP440_NUMBER_AT_MAX},
    {"release_range_bounds", release_range_bounds, "l", ">1!1.0rc1", "", PEP440_OK}, {"compare", compare, "vv", LONG, "1!1.2.301", PEP440_OK},
    {"compare, invalid", compare, "vs", LONG, "1.0prev", PEP440_INVALID_RIGHT}, {"contains", contains, "lv", LIST, "1.17+a", PEP440_OK},
    {"contains, with its set", contains, "lv", WITH_SET, "1.18", PEP440_OK}, {"allows", allows, "lv", LIST, "1.17+a", PEP440_OK},
    {"allows, with its set", allows, "lv", WITH_SET, "1.18", PEP440_OK}, {"allows, early", allows, "lv", WITH_SET, "1.18rc1", PEP440_OK},
    {"allows, all", allows_all, "lv", WITH_SET, "1.18rc1", PEP440_OK}, {"filter", filter, "lv", LIST, "b", PEP440_OK}, {"newest", newest, "lv", ">=0", "b", PEP440_OK},
    {"newest, none", newest, "lv", ">99", "b", PEP440_NONE_FOUND}, {"sort", sort, "sv", "", "c", PEP440_OK},
    {"sort, invalid", sort, "sv", "", "b", PEP440_INVALID_VERSION}, {"sort_keys", sort_keys, "sv", "", "c", PEP440_OK},
    {"compile_all", compile_all, "sv", "", "c", PEP440_OK}};

static int wrong;
static size_t calls;
static const char *name;

static void hold(int is_right, const char *what)
{
    if (!is_right && wrong++ < 10)
        printf("WRONG: %s, %s: %zu bytes, %zu ends\n", name, what, size, ends_size);
}

/* The string, or its compiled form, on the page. */
static pep440_string put(int page, const char *text, char kind, int is_compiled)
{
    uint8_t bytes[BIG], *placed;
    size_t length = strlen(text);
    memcpy(bytes, text, length);
    if (is_compiled && (kind == 'l' ? pep440_compile_list : pep440_compile)((const uint8_t *)text, strlen(text), bytes, BIG, &length) != PEP440_OK)
        exit(EXIT_FAILURE);
    placed = place(page, length);
    memcpy(placed, bytes, length);
    return (pep440_string){placed, length};
}

/* A batch: changes, or versions, which are strings and compiled forms in turn; `b` has an item that is neither. */
static void put_batch(const char *which, int is_changes, int is_compiled)
{
    static const char *const changes[] = {"release=1.2", "post=2", "local=a", "dev=1"}, *const versions[] = {"1.17+a", "1.10rc1", LONG, "1.9"};
    many = *which ? MANY : 0;
    strings = place(STRINGS, many * sizeof *strings);
    for (size_t at = 0; at < many; at++)
        strings[at] = *which == 'b' && at == 2 ? put(ITEMS + (int)at, "latest", 's', 0)
                                               : put(ITEMS + (int)at, is_changes ? changes[at] : versions[at], 'v', is_compiled && at % 2);
}

/* Makes a call; what it may write is filled with this byte before. */
static uint8_t run(uint8_t (*call)(void), uint8_t fill, Scalars *found)
{
    uint8_t status;
    calls++;
    out = place(OUT_PAGE, size);
    ends = place(ENDS_PAGE, ends_size * sizeof *ends);
    memset(pages[OUT_PAGE], fill, PAGE);
    memset(pages[ENDS_PAGE], fill, PAGE);
    for (int page = SCALARS; page < PAGES; page++)
        memset(pages[page], 0x5A, PAGE);
    written = place(SCALARS, sizeof *written), count = place(SCALARS + 1, sizeof *count), word = place(SCALARS + 2, sizeof *word);
    flag = place(SCALARS + 3, 1), early = place(SCALARS + 4, 1), order = place(SCALARS + 5, 1), parts = place(SCALARS + 6, sizeof *parts);
    status = call();
    memset(found, 0, sizeof *found);
    found->written = *written, found->count = *count, found->word = *word, found->flag = *flag, found->early = *early, found->order = *order;
    memcpy(&found->parts, parts, offsetof(pep440_parts, has_local) + 1);
    return status;
}

/* How many bytes are the same, whatever was there before. */
static size_t length_of(const uint8_t *one, const uint8_t *other, size_t most)
{
    while (most > 0 && one[most - 1] != other[most - 1])
        most--;
    return most;
}

/* Whether the page holds this at the place, and else nothing but the byte that it was filled with. */
static int has_only(int page, const uint8_t *at, const uint8_t *wanted, size_t length, uint8_t fill)
{
    int is = memcmp(at, wanted, length) == 0;
    for (const uint8_t *byte = pages[page]; byte < pages[page] + PAGE; byte++)
        is &= *byte == fill || (byte >= at && byte < at + length);
    return is;
}

static void try_sizes(uint8_t (*call)(void), uint8_t wanted)
{
    static uint8_t bytes[2][BIG], numbers[2][BIG * sizeof(size_t)];
    Scalars whole, found;
    size_t need, need_ends;
    size = ends_size = BIG;
    for (int turn = 0; turn < 2; turn++) {
        hold(run(call, turn ? 0xFF : 0xA5, &whole) == wanted, "the status");
        memcpy(bytes[turn], out, size);
        memcpy(numbers[turn], ends, ends_size * sizeof *ends);
    }
    need = length_of(bytes[0], bytes[1], BIG);
    need_ends = (length_of(numbers[0], numbers[1], sizeof numbers[0]) + sizeof *ends - 1) / sizeof *ends;
    for (size = 0; size <= need + 1; size++)
        for (ends_size = 0; ends_size <= need_ends + 1; ends_size++) {
            int has_room = size >= need && ends_size >= need_ends;
            hold(run(call, 0xA5, &found) == (has_room ? wanted : PEP440_NO_ROOM), "the status of this size");
            hold(has_only(OUT_PAGE, out, bytes[0], has_room ? need : 0, 0xA5), "the bytes");
            hold(has_only(ENDS_PAGE, (uint8_t *)ends, numbers[0], has_room ? need_ends * sizeof *ends : 0, 0xA5), "the ends");
            hold(memcmp(&found, &whole, sizeof found) == 0, "what is written beside the buffers");
        }
}

/* Each prefix of what is read, at the end of its page and at the start. */
static void try_prefixes(uint8_t (*call)(void), int is_second)
{
    pep440_string *cut = is_second ? &second : &first, all = *cut;
    uint8_t copy[BIG];
    Scalars found;
    memcpy(copy, all.bytes, all.length);
    size = ends_size = BIG;
    for (size_t length = 0; length <= all.length; length++) {
        uint8_t *placed = place(is_second ? SECOND : FIRST, length);
        memcpy(placed, copy, length);
        *cut = (pep440_string){placed, length};
        run(call, 0xA5, &found);
        hold(memcmp(placed, copy, length) == 0, "what is read is unchanged");
    }
}

int main(void)
{
    for (int page = 0; page < PAGES; page++) {
        uint8_t *three = mmap(NULL, 3 * PAGE, PROT_NONE, MAP_PRIVATE | MAP_ANONYMOUS, -1, 0);
        if (three == MAP_FAILED || mprotect(three + PAGE, PAGE, PROT_READ | PROT_WRITE))
            return EXIT_FAILURE;
        pages[page] = three + PAGE;
    }
    for (size_t at = 0; at < sizeof CALLS / sizeof *CALLS; at++)
        for (int turn = 0; turn < 8; turn++) {
            const char *kinds = CALLS[at].kinds, *text = CALLS[at].second;
            int first_compiled = turn & 1 && kinds[0] != 's', second_compiled = turn & 2 && kinds[1] == 'v';
            int is_batch = strlen(text) == 1;
            is_at_end = turn & 4;
            name = CALLS[at].name;
            first = put(FIRST, CALLS[at].first, kinds[0], first_compiled);
            second = put(SECOND, is_batch ? "" : text, kinds[1], second_compiled && !is_batch);
            put_batch(is_batch ? text : "", kinds[1] == 0, second_compiled);
            try_sizes(CALLS[at].call, CALLS[at].wanted);
            try_prefixes(CALLS[at].call, 1);
            second = put(SECOND, is_batch ? "" : text, kinds[1], second_compiled && !is_batch);
            try_prefixes(CALLS[at].call, 0);
        }
    printf("%zu calls between pages that nobody may read, %d wrong\n", calls, wrong);
    return wrong ? EXIT_FAILURE : EXIT_SUCCESS;
}
