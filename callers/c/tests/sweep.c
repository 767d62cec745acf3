/* Makes the first, second, .. allocation fail in each call, of strings, of compiled forms, and of one beside the other. The status must be
   PEP440_OUT_OF_MEMORY, nothing may be written but `at`, and the same call must then return as before. An edit may also return as before at
   once: it asks for less where much is refused. It is linked with -Wl,--wrap=malloc,--wrap=realloc,--wrap=calloc. */
#include <stdio.h>
#include <stdlib.h>
#include <string.h>

#include "pep440.h"

#define TEXT(text) (const uint8_t *)(text), sizeof(text) - 1
#define LONG "V1!1.2.3.4.5.6-Alpha.2-3.DEV+Ubuntu-01.long.local.part"
#define MEMBERS ">=1.16, !=1.5.*, ===1.17, <2.0"

void *__real_malloc(size_t size);
void *__real_realloc(void *old, size_t size);
void *__real_calloc(size_t count, size_t size);

/* How many allocations are left until one fails (0: none does), and whether it came. */
static long left;
static int came;

static int fails(void)
{
    if (left == 0 || --left != 0)
        return 0;
    came = 1;
    return 1;
}

void *__wrap_malloc(size_t size) { return fails() ? NULL : __real_malloc(size); }
void *__wrap_realloc(void *old, size_t size) { return fails() ? NULL : __real_realloc(old, size); }
void *__wrap_calloc(size_t count, size_t size) { return fails() ? NULL : __real_calloc(count, size); }

/* All that a call writes, `at` aside. */
typedef struct {
    uint8_t out[1024], marks[8];
    size_t written, count, places[8], ends[8];
    uint64_t release[8], word;
    pep440_parts parts;
    int8_t order;
    uint8_t is, early;
} Answer;

/* Of a version, of an invalid one, and so on: the string, or the compiled form, which is made once before the sweep. */
typedef struct {
    const char *text;
    uint8_t bytes[256];
    size_t length;
} Given;

static Given longer = {.text = LONG}, shorter = {.text = "1.17"}, packed = {.text = "1.2.3.post4"}, left_one = {.text = "1.0+a.b"}, right_one = {.text = "1.0.0+a.c"};
static Given with_set = {.text = ">=1.16, !=1.5.*, !=1.18.7, <2.0"}, same_set = {.text = ">=1.16, !=1.5.*, !=1.18.7, <2.0"};
static Given members = {.text = MEMBERS}, early = {.text = MEMBERS ",>=1.0a1"}, at_max = {.text = ">=1.0, ==18446744073709551615.*"};
static Given release_at_max = {.text = "~=18446744073709551615.0"};

/* Those that are invalid: a string, and a compiled form of the other kind, or one that is cut. */
static Given invalid = {.text = "1.0prev"}, no_list = {.text = ">=1.16; <2.0"}, cut = {.text = LONG}, cut_list = {.text = MEMBERS}, cut_set = {.text = ">=1.16, <2.0"};

/* Whether the first argument of a call is compiled, and whether the second one is. */
static int is_first, is_second;

static size_t at;
#define OUT answer->out, sizeof answer->out, &answer->written
#define KEYS answer->out, sizeof answer->out, answer->ends, 8, &answer->written, &answer->count

#define OF(given, is) ((is) ? (given).bytes : (const uint8_t *)(given).text), ((is) ? (given).length : strlen((given).text))
#define FIRST(given) OF(given, is_first)
#define SECOND(given) OF(given, is_second)

static const pep440_string CHANGES[] = {{TEXT("release=1.2.3.4.5.6")}, {TEXT("local=ubuntu.1")}, {TEXT("epoch=2")}};
static const pep440_string NO_CHANGES[] = {{TEXT("release=1.2.3.4.5.6")}, {TEXT("foo")}};
static const pep440_string NO_MAX[] = {{TEXT("release=1.2.3.4.5.6")}, {TEXT("max=0")}};

/* Of strings alone. */
static uint8_t specifier(Answer *answer) { return pep440_specifier(TEXT("!="), TEXT("1!1.2.3.4.5.6.*"), OUT); }
static uint8_t specifier_no_operator(Answer *answer) { return pep440_specifier(TEXT("=<"), TEXT(LONG), OUT); }
static uint8_t specifier_no_pair(Answer *answer) { return pep440_specifier(TEXT(">="), TEXT(LONG), OUT); }
static uint8_t specifier_invalid(Answer *answer) { return pep440_specifier(TEXT(">="), TEXT("1.0prev"), OUT); }
static uint8_t pattern(Answer *answer) { return pep440_pattern(TEXT("1!1.2.3.4.5.6.*"), OUT, &answer->is); }
static uint8_t pattern_invalid(Answer *answer) { return pep440_pattern(TEXT("1.2.3.4.5.6a1.*"), OUT, &answer->is); }
static uint8_t pattern_error(Answer *answer) { return pep440_pattern_error(TEXT("1.2.3.4.5.6a1.*"), OUT); }
static uint8_t specifier_error(Answer *answer) { return pep440_specifier_error(TEXT(">=1.0prev"), OUT); }
static uint8_t compile_specifier(Answer *answer) { return pep440_compile_specifier(TEXT("===" LONG), OUT); }
static uint8_t compile_no_specifier(Answer *answer) { return pep440_compile_specifier(TEXT(">=1.16,<2.0"), OUT); }

/* Of one version or one list. */
static uint8_t normalize(Answer *answer) { return pep440_normalize(FIRST(longer), OUT); }
static uint8_t normalize_invalid(Answer *answer) { return pep440_normalize(FIRST(invalid), OUT); }
static uint8_t normalize_cut(Answer *answer) { return pep440_normalize(FIRST(cut), OUT); }
static uint8_t version_error(Answer *answer) { return pep440_version_error(FIRST(invalid), OUT); }
static uint8_t version_error_cut(Answer *answer) { return pep440_version_error(FIRST(cut), OUT); }
static uint8_t parts_of(Answer *answer) { return pep440_parts_of(FIRST(longer), &answer->parts, answer->release, 8); }
static uint8_t sort_key(Answer *answer) { return pep440_sort_key(FIRST(longer), OUT); }
static uint8_t sort_key_cut(Answer *answer) { return pep440_sort_key(FIRST(cut), OUT); }
static uint8_t word(Answer *answer) { return pep440_word(FIRST(packed), &answer->word); }
static uint8_t word_not_packed(Answer *answer) { return pep440_word(FIRST(longer), &answer->word); }
static uint8_t compile(Answer *answer) { return pep440_compile(FIRST(longer), OUT); }
static uint8_t compile_short(Answer *answer) { return pep440_compile(FIRST(shorter), OUT); }
static uint8_t compile_invalid(Answer *answer) { return pep440_compile(FIRST(invalid), OUT); }
static uint8_t build_error(Answer *answer) { return pep440_build_error(PEP440_LESS, FIRST(longer), 0, OUT); }
static uint8_t build_error_invalid(Answer *answer) { return pep440_build_error(PEP440_LESS, FIRST(invalid), 1, OUT); }
static uint8_t edit(Answer *answer) { return pep440_edit(FIRST(longer), CHANGES, 3, OUT); }
static uint8_t edit_invalid(Answer *answer) { return pep440_edit(FIRST(invalid), CHANGES, 3, OUT); }
static uint8_t edit_no_change(Answer *answer) { return pep440_edit(FIRST(longer), NO_CHANGES, 2, OUT); }
static uint8_t edit_no_max(Answer *answer) { return pep440_edit(FIRST(longer), NO_MAX, 2, OUT); }
static uint8_t edit_error(Answer *answer) { return pep440_edit_error(FIRST(longer), NO_CHANGES, 2, OUT); }
static uint8_t edit_error_max(Answer *answer) { return pep440_edit_error(FIRST(longer), NO_MAX, 2, OUT); }
static uint8_t normalize_list(Answer *answer) { return pep440_normalize_list(FIRST(members), OUT); }
static uint8_t normalize_no_list(Answer *answer) { return pep440_normalize_list(FIRST(no_list), OUT); }
static uint8_t normalize_cut_list(Answer *answer) { return pep440_normalize_list(FIRST(cut_list), OUT); }
static uint8_t normalize_cut_set(Answer *answer) { return pep440_normalize_list(FIRST(cut_set), OUT); }
static uint8_t list_error(Answer *answer) { return pep440_list_error(FIRST(no_list), OUT); }
static uint8_t list_error_cut(Answer *answer) { return pep440_list_error(FIRST(cut_list), OUT); }
static uint8_t any_prerelease(Answer *answer) { return pep440_any_prerelease(FIRST(early), &answer->is); }
static uint8_t requests_prereleases(Answer *answer) { return pep440_requests_prereleases(FIRST(early), &answer->is); }
static uint8_t specifiers_of(Answer *answer) { return pep440_specifiers_of(FIRST(members), KEYS); }
static uint8_t version_in(Answer *answer) { return pep440_version_in(FIRST(members), OUT); }
static uint8_t version_in_no_list(Answer *answer) { return pep440_version_in(FIRST(no_list), OUT); }
static uint8_t ranges(Answer *answer) { return pep440_ranges(FIRST(members), OUT); }
static uint8_t ranges_at_max(Answer *answer) { return pep440_ranges(FIRST(at_max), OUT); }
static uint8_t ranges_no_list(Answer *answer) { return pep440_ranges(FIRST(no_list), OUT); }
static uint8_t range_bounds(Answer *answer) { return pep440_range_bounds(FIRST(members), KEYS); }
static uint8_t range_bounds_at_max(Answer *answer) { return pep440_range_bounds(FIRST(at_max), KEYS); }
static uint8_t range_bounds_no_list(Answer *answer) { return pep440_range_bounds(FIRST(no_list), KEYS); }
static uint8_t release_range_bounds(Answer *answer) { return pep440_release_range_bounds(FIRST(members), KEYS); }
static uint8_t release_range_bounds_at_max(Answer *answer) { return pep440_release_range_bounds(FIRST(release_at_max), KEYS); }
static uint8_t release_range_bounds_no_list(Answer *answer) { return pep440_release_range_bounds(FIRST(no_list), KEYS); }
static uint8_t boundaries(Answer *answer) { return pep440_boundaries(FIRST(with_set), KEYS); }
static uint8_t boundaries_same_set(Answer *answer) { return pep440_boundaries(FIRST(same_set), KEYS); }
static uint8_t boundaries_at_max(Answer *answer) { return pep440_boundaries(FIRST(at_max), KEYS); }
static uint8_t boundaries_no_set(Answer *answer) { return pep440_boundaries(FIRST(members), KEYS); }
static uint8_t boundaries_no_list(Answer *answer) { return pep440_boundaries(FIRST(no_list), KEYS); }
static uint8_t complement(Answer *answer) { return pep440_complement(FIRST(with_set), OUT); }
static uint8_t complement_no_set(Answer *answer) { return pep440_complement(FIRST(members), OUT); }
static uint8_t intersection(Answer *answer) { return pep440_intersection(FIRST(with_set), FIRST(same_set), OUT); }
static uint8_t intersection_no_right(Answer *answer) { return pep440_intersection(FIRST(with_set), FIRST(no_list), OUT); }
static uint8_t unite(Answer *answer) { return pep440_union(FIRST(with_set), FIRST(same_set), OUT); }
static uint8_t unite_no_left(Answer *answer) { return pep440_union(FIRST(no_list), FIRST(with_set), OUT); }
static uint8_t is_subset(Answer *answer) { return pep440_is_subset(FIRST(with_set), FIRST(same_set), &answer->is); }
static uint8_t version_in_set(Answer *answer) { return pep440_version_in(FIRST(with_set), OUT); }
static uint8_t compile_list(Answer *answer) { return pep440_compile_list(FIRST(members), OUT); }
static uint8_t compile_list_set(Answer *answer) { return pep440_compile_list(FIRST(with_set), OUT); }
static uint8_t compile_list_same_set(Answer *answer) { return pep440_compile_list(FIRST(same_set), OUT); }
static uint8_t compile_no_list(Answer *answer) { return pep440_compile_list(FIRST(no_list), OUT); }

/* Of two, and of a batch, whose items are strings and compiled forms in turn. */
static uint8_t compare(Answer *answer) { return pep440_compare(FIRST(left_one), SECOND(right_one), &answer->order); }
static uint8_t compare_invalid(Answer *answer) { return pep440_compare(FIRST(invalid), SECOND(invalid), &answer->order); }
static uint8_t compare_right(Answer *answer) { return pep440_compare(FIRST(longer), SECOND(invalid), &answer->order); }
static uint8_t contains(Answer *answer) { return pep440_contains(FIRST(members), SECOND(shorter), &answer->is, &answer->early); }
static uint8_t contains_not(Answer *answer) { return pep440_contains(FIRST(members), SECOND(longer), &answer->is, &answer->early); }
static uint8_t contains_no_list(Answer *answer) { return pep440_contains(FIRST(no_list), SECOND(invalid), &answer->is, &answer->early); }
static uint8_t contains_invalid(Answer *answer) { return pep440_contains(FIRST(members), SECOND(invalid), &answer->is, &answer->early); }
static uint8_t contains_set(Answer *answer) { return pep440_contains(FIRST(with_set), SECOND(shorter), &answer->is, &answer->early); }
static uint8_t contains_same_set(Answer *answer) { return pep440_contains(FIRST(same_set), SECOND(shorter), &answer->is, &answer->early); }
static uint8_t allows(Answer *answer) { return pep440_allows(FIRST(members), SECOND(shorter), PEP440_ASKED_PRERELEASES, &answer->is); }
static uint8_t allows_set(Answer *answer) { return pep440_allows(FIRST(with_set), SECOND(shorter), PEP440_ASKED_PRERELEASES, &answer->is); }
static uint8_t allows_same_set(Answer *answer) { return pep440_allows(FIRST(same_set), SECOND(shorter), PEP440_ALL_PRERELEASES, &answer->is); }
static uint8_t allows_not(Answer *answer) { return pep440_allows(FIRST(with_set), SECOND(longer), PEP440_NO_PRERELEASES, &answer->is); }
static uint8_t allows_no_list(Answer *answer) { return pep440_allows(FIRST(no_list), SECOND(invalid), PEP440_ALL_PRERELEASES, &answer->is); }
static uint8_t allows_invalid(Answer *answer) { return pep440_allows(FIRST(with_set), SECOND(invalid), PEP440_ALL_PRERELEASES, &answer->is); }
/* A compiled list with its set beside a string in a normal spelling, whatever the kinds of the arguments. */
static uint8_t allows_string(Answer *answer)
{
    return pep440_allows(with_set.bytes, with_set.length, (const uint8_t *)"1.17rc1", 7, PEP440_ASKED_PRERELEASES, &answer->is);
}

static pep440_string batch[5], stopped[2];
static uint8_t filter(Answer *answer) { return pep440_filter(FIRST(members), batch, 5, answer->marks, 8); }
static uint8_t newest(Answer *answer) { return pep440_newest(FIRST(members), batch, 5, &answer->count); }
static uint8_t newest_no_list(Answer *answer) { return pep440_newest(FIRST(no_list), batch, 5, &answer->count); }
static uint8_t filter_stopped(Answer *answer) { return pep440_filter(FIRST(members), stopped, 2, answer->marks, 8); }
static uint8_t filter_no_list(Answer *answer) { return pep440_filter(FIRST(no_list), batch, 5, answer->marks, 8); }
static uint8_t sort(Answer *answer) { return pep440_sort(batch, 5, answer->places, 8, &at); }
static uint8_t sort_invalid(Answer *answer) { return pep440_sort(stopped, 2, answer->places, 8, &at); }
static uint8_t sort_keys(Answer *answer)
{
    return pep440_sort_keys(batch, 5, answer->out, sizeof answer->out, answer->ends, 8, &answer->written, &at);
}
static uint8_t compile_batch(Answer *answer)
{
    return pep440_compile_all(batch, 5, answer->out, sizeof answer->out, answer->ends, 8, &answer->written, &at);
}
static uint8_t sort_keys_invalid(Answer *answer)
{
    return pep440_sort_keys(stopped, 2, answer->out, sizeof answer->out, answer->ends, 8, &answer->written, &at);
}

typedef struct {
    const char *name;
    uint8_t (*call)(Answer *);
    uint8_t wanted;
    int arguments; /* how many may be compiled */
} Call;

#define CALL(call, wanted, arguments) {#call, call, wanted, arguments}

static const Call CALLS[] = {
    CALL(specifier, PEP440_OK, 0),
    CALL(specifier_no_operator, PEP440_INVALID_LIST, 0),
    CALL(specifier_no_pair, PEP440_INVALID_LIST, 0),
    CALL(specifier_invalid, PEP440_INVALID_VERSION, 0),
    CALL(pattern, PEP440_OK, 0),
    CALL(pattern_invalid, PEP440_INVALID_VERSION, 0),
    CALL(pattern_error, PEP440_OK, 0),
    CALL(specifier_error, PEP440_OK, 0),
    CALL(compile_specifier, PEP440_OK, 0),
    CALL(compile_no_specifier, PEP440_INVALID_LIST, 0),
    CALL(normalize, PEP440_OK, 1),
    CALL(normalize_invalid, PEP440_INVALID_VERSION, 1),
    CALL(version_error, PEP440_OK, 1),
    CALL(parts_of, PEP440_OK, 1),
    CALL(sort_key, PEP440_OK, 1),
    CALL(word, PEP440_OK, 1),
    CALL(word_not_packed, PEP440_NOT_PACKED, 1),
    CALL(compile, PEP440_OK, 1),
    CALL(compile_short, PEP440_OK, 1),
    CALL(compile_invalid, PEP440_INVALID_VERSION, 1),
    CALL(build_error, PEP440_OK, 1),
    CALL(build_error_invalid, PEP440_INVALID_VERSION, 1),
    CALL(normalize_list, PEP440_OK, 1),
    CALL(normalize_no_list, PEP440_INVALID_LIST, 1),
    CALL(list_error, PEP440_OK, 1),
    CALL(any_prerelease, PEP440_OK, 1),
    CALL(requests_prereleases, PEP440_OK, 1),
    CALL(specifiers_of, PEP440_OK, 1),
    CALL(version_in, PEP440_OK, 1),
    CALL(version_in_no_list, PEP440_INVALID_LIST, 1),
    CALL(ranges, PEP440_OK, 1),
    CALL(ranges_at_max, PEP440_NUMBER_AT_MAX, 1),
    CALL(ranges_no_list, PEP440_INVALID_LIST, 1),
    CALL(range_bounds, PEP440_OK, 1),
    CALL(range_bounds_at_max, PEP440_NUMBER_AT_MAX, 1),
    CALL(range_bounds_no_list, PEP440_INVALID_LIST, 1),
    CALL(release_range_bounds, PEP440_OK, 1),
    CALL(release_range_bounds_at_max, PEP440_NUMBER_AT_MAX, 1),
    CALL(release_range_bounds_no_list, PEP440_INVALID_LIST, 1),
    CALL(boundaries, PEP440_OK, 1),
    CALL(boundaries_same_set, PEP440_OK, 1),
    CALL(boundaries_at_max, PEP440_OK, 1),
    CALL(boundaries_no_set, PEP440_NO_SET, 1),
    CALL(boundaries_no_list, PEP440_INVALID_LIST, 1),
    CALL(complement, PEP440_OK, 1),
    CALL(complement_no_set, PEP440_NO_SET, 1),
    CALL(intersection, PEP440_OK, 1),
    CALL(intersection_no_right, PEP440_INVALID_RIGHT, 1),
    CALL(unite, PEP440_OK, 1),
    CALL(unite_no_left, PEP440_INVALID_LIST, 1),
    CALL(is_subset, PEP440_OK, 1),
    CALL(version_in_set, PEP440_OK, 1),
    CALL(compile_list, PEP440_OK, 1),
    CALL(compile_list_set, PEP440_OK, 1),
    CALL(compile_list_same_set, PEP440_OK, 1),
    CALL(compile_no_list, PEP440_INVALID_LIST, 1),
    CALL(compare, PEP440_OK, 2),
    CALL(compare_invalid, PEP440_INVALID_VERSION, 2),
    CALL(compare_right, PEP440_INVALID_RIGHT, 2),
    CALL(contains, PEP440_OK, 2),
    CALL(contains_not, PEP440_OK, 2),
    CALL(contains_no_list, PEP440_INVALID_LIST, 2),
    CALL(contains_invalid, PEP440_INVALID_VERSION, 2),
    CALL(contains_set, PEP440_OK, 2),
    CALL(allows, PEP440_OK, 2),
    CALL(allows_set, PEP440_OK, 2),
    CALL(allows_same_set, PEP440_OK, 2),
    CALL(allows_not, PEP440_OK, 2),
    CALL(allows_no_list, PEP440_INVALID_LIST, 2),
    CALL(allows_invalid, PEP440_INVALID_VERSION, 2),
    CALL(filter, PEP440_OK, 2),
    CALL(newest, PEP440_OK, 2),
    CALL(newest_no_list, PEP440_INVALID_LIST, 2),
    CALL(filter_stopped, PEP440_OK, 2),
    CALL(filter_no_list, PEP440_INVALID_LIST, 2),
    CALL(sort, PEP440_OK, 2),
    CALL(sort_invalid, PEP440_INVALID_VERSION, 2),
    CALL(sort_keys, PEP440_OK, 2),
    CALL(compile_batch, PEP440_OK, 2),
    CALL(sort_keys_invalid, PEP440_INVALID_VERSION, 2)};

/* Calls that guess how much they need, and ask for less where that is refused. */
static const Call GUESSING[] = {
    CALL(edit, PEP440_OK, 1),
    CALL(edit_invalid, PEP440_INVALID_VERSION, 1),
    CALL(edit_no_change, PEP440_INVALID_CHANGE, 1),
    CALL(edit_no_max, PEP440_INVALID_CHANGE, 1),
    CALL(edit_error, PEP440_OK, 1),
    CALL(edit_error_max, PEP440_OK, 1)};

/* Of compiled bytes alone, which are cut. */
static const Call CUT[] = {CALL(normalize_cut, PEP440_INVALID_VERSION, 1), CALL(version_error_cut, PEP440_OK, 1), CALL(sort_key_cut, PEP440_INVALID_VERSION, 1),
                           CALL(normalize_cut_list, PEP440_INVALID_LIST, 1), CALL(normalize_cut_set, PEP440_INVALID_LIST, 1), CALL(list_error_cut, PEP440_OK, 1)};

/* Calls of compiled forms alone that allocate nothing. */
static const Call WITHOUT[] = {CALL(compare, PEP440_OK, 2),      CALL(contains, PEP440_OK, 2),          CALL(contains_not, PEP440_OK, 2),
                                CALL(contains_set, PEP440_OK, 2), CALL(contains_same_set, PEP440_OK, 2), CALL(allows_set, PEP440_OK, 2),
                                CALL(allows_not, PEP440_OK, 2),   CALL(allows_string, PEP440_OK, 2)};

/* Wrong results of this call; `failed` counts the allocations that failed. */
static int sweep(uint8_t (*call)(Answer *), uint8_t wanted, int may_guess, int *failed)
{
    static Answer plain, answer, untouched;
    int wrong = 0;
    memset(&plain, 0x5A, sizeof plain);
    memset(&untouched, 0x5A, sizeof untouched);
    wrong += call(&plain) != wanted;
    for (long number = 1;; number++) {
        memset(&answer, 0x5A, sizeof answer);
        came = 0;
        left = number;
        uint8_t status = call(&answer);
        left = 0;
        if (!came)
            return wrong + (status != wanted || memcmp(&answer, &plain, sizeof plain) != 0);
        ++*failed;
        if (!may_guess || status != wanted || memcmp(&answer, &plain, sizeof plain) != 0)
            wrong += status != PEP440_OUT_OF_MEMORY || memcmp(&answer, &untouched, sizeof answer) != 0;
        memset(&answer, 0x5A, sizeof answer);
        wrong += call(&answer) != wanted || memcmp(&answer, &plain, sizeof plain) != 0;
    }
}

/* Leaves the members, which are the list in format 5: the set has less than 256 bytes. */
static void drop_set(Given *given)
{
    size_t before = 3 + (size_t)given->bytes[2];
    given->length -= before;
    memmove(given->bytes, given->bytes + before, given->length);
}

/* The compiled form of a version or a list; of what has none, that of the other kind. */
static int compile_one(Given *given, int is_list)
{
    uint8_t status = (is_list ? pep440_compile_list : pep440_compile)((const uint8_t *)given->text, strlen(given->text), given->bytes, sizeof given->bytes, &given->length);
    if (given == &invalid || given == &no_list) {
        given->bytes[0] = given == &invalid ? 5 : 4;
        given->length = 1;
        return status == PEP440_OK;
    }
    given->length -= given == &cut ? 1 : given == &cut_list || given == &cut_set ? 2 : 0;
    if (given == &same_set)
        drop_set(given);
    return status != PEP440_OK;
}

static int compile_all(void)
{
    Given *const versions[] = {&longer, &shorter, &packed, &left_one, &right_one, &invalid, &cut};
    Given *const lists[] = {&members, &with_set, &same_set, &early, &at_max, &release_at_max, &no_list, &cut_list, &cut_set};
    int failed = 0;
    for (size_t place = 0; place < sizeof versions / sizeof *versions; place++)
        failed += compile_one(versions[place], 0);
    for (size_t place = 0; place < sizeof lists / sizeof *lists; place++)
        failed += compile_one(lists[place], 1);
    return failed;
}

/* The batches, whose items are strings, compiled forms, or these in turn. */
static void fill_batches(void)
{
    const Given *const versions[] = {&left_one, &right_one, &longer, &shorter, &packed};
    for (size_t place = 0; place < 5; place++)
        batch[place] = (pep440_string){OF(*versions[place], place % 2 ? is_first : is_second)};
    stopped[0] = batch[0];
    stopped[1] = (pep440_string){OF(invalid, is_first)};
}

static int all_failed, all_wrong;

/* Sweeps each call of a table, in each of the kinds of its arguments from the first one on. */
static void sweep_table(const Call *calls, size_t count, int may_guess, int first, int may_allocate)
{
    for (size_t place = 0; place < count; place++) {
        int failed = 0, wrong = 0;
        for (int kinds = first; kinds < 1 << calls[place].arguments; kinds++) {
            is_first = kinds % 2;
            is_second = kinds / 2;
            fill_batches();
            wrong += sweep(calls[place].call, calls[place].wanted, may_guess, &failed);
        }
        printf("%-36s %3d allocations failed in turn, %d wrong\n", calls[place].name, failed, wrong);
        all_failed += failed;
        all_wrong += wrong + (may_allocate ? 0 : failed);
    }
}

#define TABLE(table) table, sizeof table / sizeof *table

int main(void)
{
    all_wrong = compile_all();
    sweep_table(TABLE(CALLS), 0, 0, 1);
    sweep_table(TABLE(GUESSING), 1, 0, 1);
    sweep_table(TABLE(CUT), 0, 1, 1);
    sweep_table(TABLE(WITHOUT), 0, 3, 0);
    printf("%d allocations failed, %d wrong\n", all_failed, all_wrong);
    return all_wrong || !all_failed ? EXIT_FAILURE : EXIT_SUCCESS;
}
