/* Compares results of the calls with what PEP 440, `packaging` 26.3 and the header say: of strings, of compiled forms, and of both side by side.
   What a call writes to is uninitialized before, which the header allows: valgrind finds no use of such bytes. */
#include <stdio.h>
#include <stdlib.h>
#include <string.h>

#include "pep440.h"

/* A string that ends in a zero, as the bytes and the length that a call takes. */
#define TEXT(text) (const uint8_t *)(text), strlen(text)

/* A version, a list, and what stands to the right of a version: the string, or in some turns its compiled form. */
#define VERSION(text) given(text, 'v')->bytes, given(text, 'v')->length
#define LIST(text) given(text, 'l')->bytes, given(text, 'l')->length
#define RIGHT(text) given(text, 'r')->bytes, given(text, 'r')->length

static int wrong;

static void hold(int is_right, const char *what)
{
    if (!is_right) {
        printf("WRONG: %s\n", what);
        wrong++;
    }
}

static void hold_text(const uint8_t *out, size_t written, const char *wanted)
{
    hold(written == strlen(wanted) && memcmp(out, wanted, written) == 0, wanted);
}

/* What a turn passes as a compiled form: versions, lists and what stands to the right, all, or all with the lists in format 5. */
enum { STRINGS, VERSIONS, OTHERS, ALL, MEMBERS };

static int turn;

/* What was passed before, each in memory of its own length. */
static struct {
    const char *text;
    char kind;
    int turn;
    pep440_string bytes;
} kept[1024];
static size_t how_many;

/* Leaves of a compiled list its members, which are format 5: without the byte 6, how many bytes the set has, and these. */
static size_t drop_set(uint8_t *bytes, size_t length)
{
    size_t number = 2 + bytes[1], set = 0;
    for (size_t at = 2; at < number; at++)
        set = set * 256 + bytes[at];
    memmove(bytes, bytes + number + set, length - number - set);
    return length - number - set;
}

/* The compiled form; of a string that has none that of the other kind, which is as invalid. */
static size_t compile(const char *text, char kind, uint8_t *out, size_t size)
{
    size_t length = 1;
    if ((kind == 'l' ? pep440_compile_list : pep440_compile)(TEXT(text), out, size, &length) != PEP440_OK)
        out[0] = kind == 'l' ? 4 : 5;
    return turn == MEMBERS && out[0] == 6 ? drop_set(out, length) : length;
}

static const pep440_string *given(const char *text, char kind)
{
    uint8_t bytes[256], *copy;
    size_t length = strlen(text), at = 0;
    while (at < how_many && (strcmp(kept[at].text, text) != 0 || kept[at].kind != kind || kept[at].turn != turn))
        at++;
    if (at == how_many) {
        memcpy(bytes, text, length);
        if (turn >= ALL || turn == (kind == 'v' ? VERSIONS : OTHERS))
            length = compile(text, kind, bytes, sizeof bytes);
        copy = how_many++ < sizeof kept / sizeof *kept ? malloc(length + !length) : NULL;
        if (!copy)
            exit(EXIT_FAILURE);
        memcpy(copy, bytes, length);
        kept[at].text = text, kept[at].kind = kind, kept[at].turn = turn;
        kept[at].bytes = (pep440_string){copy, length};
    }
    return &kept[at].bytes;
}

static void normalize(void)
{
    uint8_t out[256];
    size_t written, count, ends[4];
    hold(pep440_normalize(VERSION(" V1!1.0-Alpha.2-3.DEV+Ubuntu-01 "), out, sizeof out, &written) == PEP440_OK, "normalize");
    hold_text(out, written, "1!1.0a2.post3.dev0+ubuntu.1");

    /* With too little room the call writes the length that is needed. */
    hold(pep440_normalize(VERSION("1.0.post1"), out, 3, &written) == PEP440_NO_ROOM && written == 9, "room");

    hold(pep440_normalize(VERSION("1.0prev"), out, sizeof out, &written) == PEP440_INVALID_VERSION, "invalid");
    hold(pep440_version_error(VERSION("1.0prev"), out, sizeof out, &written) == PEP440_OK && written > 0, "why");
    hold(pep440_version_error(VERSION("1.0"), out, sizeof out, &written) == PEP440_OK && written == 0, "nothing is wrong");
    written = 77;
    hold(pep440_error(PEP440_A_LIST + 1, VERSION("1.0"), out, sizeof out, &written) == PEP440_INVALID_KIND && written == 77, "no kind");

    hold(pep440_normalize_list(LIST(">=1.16 ,<2.0"), out, sizeof out, &written) == PEP440_OK, "normalize_list");
    hold_text(out, written, ">=1.16, <2.0");
    hold(pep440_normalize_list(LIST(">=1.16; <2.0"), out, sizeof out, &written) == PEP440_INVALID_LIST, "no list to normalize");
    hold(pep440_specifiers_of(LIST("!=1.5.* ,>=1.16"), out, sizeof out, ends, 4, &written, &count) == PEP440_OK && count == 4, "specifiers_of");
    hold_text(out, written, "!=1.5.*>=1.16");
    hold(ends[0] == 2 && ends[1] == 7 && ends[2] == 9 && ends[3] == 13, "operator, version, operator, version");
    hold(pep440_list_error(LIST(">=1.16; <2.0"), out, sizeof out, &written) == PEP440_OK && written > 0, "why no list");
    hold(pep440_list_error(LIST(">=1.16, <2.0"), out, sizeof out, &written) == PEP440_OK && written == 0, "nothing is wrong with the list");
}

/* The calls of patterns, and of one specifier, take strings alone. */
static void take_strings(void)
{
    uint8_t out[256], form[64], star;
    size_t written, length;
    hold(pep440_specifier(TEXT("!="), TEXT("01.5.*"), out, sizeof out, &written) == PEP440_OK, "specifier");
    hold_text(out, written, "!=1.5.*");
    hold(pep440_specifier(TEXT(">="), TEXT("1.5.*"), out, sizeof out, &written) == PEP440_INVALID_LIST, "no star after >=");
    hold(pep440_specifier(TEXT("~="), TEXT("latest"), out, sizeof out, &written) == PEP440_INVALID_VERSION, "no version after ~=");
    hold(pep440_pattern(TEXT("1.5.0.*"), out, sizeof out, &written, &star) == PEP440_OK && star == 1, "a pattern");
    hold_text(out, written, "1.5.0");
    hold(pep440_pattern(TEXT("v1.5"), out, sizeof out, &written, &star) == PEP440_OK && star == 0, "a pattern without a star");
    hold(pep440_pattern(TEXT("1.5a1.*"), out, sizeof out, &written, &star) == PEP440_INVALID_VERSION, "no star after a pre-release");
    hold(pep440_pattern_error(TEXT("1.5a1.*"), out, sizeof out, &written) == PEP440_OK && written > 0, "why no pattern");
    hold(pep440_specifier_error(TEXT(">=1.16"), out, sizeof out, &written) == PEP440_OK && written == 0, "a specifier");

    hold(pep440_compile(TEXT("1.5"), form, sizeof form, &length) == PEP440_OK, "compile");
    hold(pep440_pattern(form, length, out, sizeof out, &written, &star) == PEP440_INVALID_VERSION, "no compiled pattern");
    hold(pep440_pattern_error(form, length, out, sizeof out, &written) == PEP440_OK && written > 0, "why no compiled pattern");
    hold(pep440_specifier(TEXT(">="), form, length, out, sizeof out, &written) == PEP440_INVALID_VERSION, "no compiled version in a specifier");
    hold(pep440_compile_specifier(TEXT(">=1.16"), form, sizeof form, &length) == PEP440_OK, "compile_specifier");
    hold(pep440_compile_specifier(form, length, out, sizeof out, &written) == PEP440_INVALID_LIST, "no compiled specifier");
    hold(pep440_specifier_error(form, length, out, sizeof out, &written) == PEP440_OK && written > 0, "why no compiled specifier");
    hold(pep440_normalize_list(form, length, out, sizeof out, &written) == PEP440_OK, "but a list of one");
    hold_text(out, written, ">=1.16");
}

static void build(void)
{
    uint8_t out[256];
    size_t written;
    hold(pep440_build_error(PEP440_COMPATIBLE, VERSION("1.5"), 0, out, sizeof out, &written) == PEP440_OK && written == 0, "~=1.5");
    hold(pep440_build_error(PEP440_COMPATIBLE, VERSION("1"), 0, out, sizeof out, &written) == PEP440_OK && written > 0, "no ~=1");
    hold(pep440_build_error(PEP440_EQUAL, VERSION("1.5"), 1, out, sizeof out, &written) == PEP440_OK && written == 0, "==1.5.*");
    hold(pep440_build_error(PEP440_LESS, VERSION("1.5"), 1, out, sizeof out, &written) == PEP440_OK && written > 0, "no <1.5.*");
    hold(pep440_build_error(PEP440_LESS, VERSION("1.5+a"), 0, out, sizeof out, &written) == PEP440_OK && written > 0, "no <1.5+a");
    hold(pep440_build_error(PEP440_LESS, VERSION("latest"), 0, out, sizeof out, &written) == PEP440_INVALID_VERSION, "no version to build");
    hold(pep440_build_error(PEP440_GREATER_EQUAL + 1, VERSION("latest"), 0, out, sizeof out, &written) == PEP440_INVALID_LIST, "no operator's number");
}

static void edit(void)
{
    const pep440_string changes[] = {{TEXT("release=1.2.3")}, {TEXT("pre=")}, {TEXT("post=2")}}, wrong[] = {{TEXT("post=2")}, {TEXT("post=two")}};
    uint8_t out[256];
    size_t written;
    hold(pep440_edit(VERSION("v1.0a1+local"), changes, 3, out, sizeof out, &written) == PEP440_OK, "edit");
    hold_text(out, written, "1.2.3.post2+local");
    hold(pep440_edit(VERSION("1.0"), wrong, 2, out, sizeof out, &written) == PEP440_INVALID_CHANGE, "no change");
    hold(pep440_edit_error(VERSION("1.0"), wrong, 2, out, sizeof out, &written) == PEP440_OK, "why it is none");
    hold_text(out, written, "change 2: not a change");
    hold(pep440_edit_error(VERSION("1.0"), wrong, 1, out, sizeof out, &written) == PEP440_OK && written == 0, "nothing is wrong with the first");
}

static void compare_and_match(void)
{
    int8_t order;
    uint8_t is, early;
    hold(pep440_compare(VERSION("1.0rc1"), RIGHT("1.0"), &order) == PEP440_OK && order == -1, "1.0rc1 < 1.0");
    hold(pep440_compare(VERSION("1.0"), RIGHT("1.0.0"), &order) == PEP440_OK && order == 0, "1.0 == 1.0.0");
    hold(pep440_compare(VERSION("1.10"), RIGHT("1.9"), &order) == PEP440_OK && order == 1, "1.10 > 1.9");
    hold(pep440_compare(VERSION("1.0prev"), RIGHT("latest"), &order) == PEP440_INVALID_VERSION, "the left one is invalid");
    hold(pep440_compare(VERSION("1.0"), RIGHT("latest"), &order) == PEP440_INVALID_RIGHT, "the right one is invalid");
    hold(pep440_contains(LIST(">=1.16, <2.0"), VERSION("1.19"), &is, &early) == PEP440_OK && is == 1, "contains 1.19");
    hold(pep440_contains(LIST(">=1.16, <2.0"), VERSION("2.0a1"), &is, &early) == PEP440_OK && is == 0, "does not contain 2.0a1");
    hold(pep440_contains(LIST(">=1.0"), VERSION("2.0rc1"), &is, &early) == PEP440_OK && is == 1 && early == 1, "a pre-release is a version like others");
    hold(pep440_contains(LIST(">=1.16; <2.0"), VERSION("1.19"), &is, &early) == PEP440_INVALID_LIST, "no list");
    hold(pep440_contains(LIST(">=1.16"), VERSION("latest"), &is, &early) == PEP440_INVALID_VERSION, "no version");
    hold(pep440_contains(LIST(">=1.16; <2.0"), VERSION("latest"), &is, &early) == PEP440_INVALID_LIST, "neither");
    hold(pep440_contains(LIST("<1.0.post1"), VERSION("1.0rc1"), &is, &early) == PEP440_OK && is == 0, "the ported crate's rule: a pre-release of 1.0");
    hold(pep440_contains(LIST(">1.0rc1"), VERSION("1.0.post1"), &is, &early) == PEP440_OK && is == 0, "the ported crate's rule: a post-release of 1.0");
    hold(pep440_any_prerelease(LIST(">=1.0, <2.0rc1"), &is) == PEP440_OK && is == 1, "a pre-release among them");
    hold(pep440_any_prerelease(LIST(">=1.0, <2.0"), &is) == PEP440_OK && is == 0, "none among them");
    hold(pep440_requests_prereleases(LIST(">=1.0, <2.0rc1"), &is) == PEP440_OK && is == 1, "a pre-release is asked for");
    hold(pep440_requests_prereleases(LIST(">=1.0, !=2.0rc1"), &is) == PEP440_OK && is == 0, "an excluded pre-release is not asked for");
    hold(pep440_requests_prereleases(LIST("===1.0.dev1"), &is) == PEP440_OK && is == 1, "a developmental release is asked for");
}

/* By today's rule, as SpecifierSet.contains of `packaging` 26.3 has it with False and with True; and with True if `prereleases` of the set is, else False. */
static const struct {
    const char *list, *version;
    uint8_t allowed[3]; /* by the number of what is taken */
} ALLOWED[] = {
    {">=1.0", "1.9", {1, 1, 1}},          {">=1.0", "0.9", {0, 0, 0}},           {">=1.0", "2.0rc1", {0, 1, 0}},
    {">=1.0, !=1.5rc1", "2.0.dev1", {0, 1, 0}}, {">=1.0rc1", "2.0rc1", {0, 1, 1}}, {">=1.0", "2.0.post1", {1, 1, 1}},
    {"<1.0.post1", "1.0rc1", {0, 1, 0}},  {"<1.0.post1", "1.0.post1.dev0", {0, 0, 0}}, {"<1.0", "1.0rc1", {0, 0, 0}},
    {"<1.0rc1", "1.0b2", {0, 1, 1}},      {">1.0rc1", "1.0.post1", {1, 1, 1}},   {">1.0rc1", "1.0+cpu", {1, 1, 1}},
    {">1.0rc1", "1.0rc1.post1", {0, 0, 0}}, {">1.0", "1.0.post1", {0, 0, 0}},    {">1.0", "1.0+cpu", {0, 0, 0}},
    {"<=1.0", "1.0+cu1", {1, 1, 1}},      {"!=1.0", "1.0+cu1", {0, 0, 0}},       {"==1.0+cu1", "1.0+cu1.2", {0, 0, 0}},
    {"==1.5.*", "1.5.dev3", {0, 1, 0}},   {"~=1.4.2", "1.4.10", {1, 1, 1}},      {"===1.0", "1.0.0", {0, 0, 0}},
    {">=1.16, !=1.5.*, ===1.17", "1.17", {1, 1, 1}}, {"", "1.0.dev1", {0, 1, 0}}, {">1!0", "2!0", {1, 1, 1}},
};

static void allow(void)
{
    uint8_t is;
    for (size_t at = 0; at < sizeof ALLOWED / sizeof *ALLOWED; at++)
        for (unsigned prereleases = 0; prereleases < 256; prereleases = prereleases == 3 ? 255 : prereleases + 1) {
            uint8_t wanted = ALLOWED[at].allowed[prereleases > PEP440_ASKED_PRERELEASES ? PEP440_ASKED_PRERELEASES : prereleases];
            is = 7;
            hold(pep440_allows(LIST(ALLOWED[at].list), VERSION(ALLOWED[at].version), (uint8_t)prereleases, &is) == PEP440_OK && is == wanted, ALLOWED[at].list);
        }
    is = 7;
    hold(pep440_allows(LIST(">=1.16; <2.0"), VERSION("latest"), PEP440_ALL_PRERELEASES, &is) == PEP440_INVALID_LIST && is == 7, "allows, neither");
    hold(pep440_allows(LIST(">=1.16"), VERSION("latest"), PEP440_ALL_PRERELEASES, &is) == PEP440_INVALID_VERSION && is == 7, "allows, no version");
}

static void take_apart(void)
{
    pep440_parts parts;
    uint64_t release[4];
    uint8_t out[256], is, early;
    int8_t order;
    size_t written;
    hold(pep440_parts_of(VERSION("2!1.2.3rc4.post5+ubuntu.1"), &parts, release, 4) == PEP440_OK, "parts");
    hold(parts.epoch == 2 && parts.release_length == 3 && release[0] == 1 && release[1] == 2 && release[2] == 3, "epoch and release");
    hold(parts.pre_kind == PEP440_RC && parts.pre == 4 && parts.has_post == 1 && parts.post == 5, "suffixes");
    hold(parts.has_dev == 0 && parts.dev == 0 && parts.has_local == 1, "dev and local");
    hold(pep440_parts_of(VERSION("1.2.3.4.5"), &parts, release, 4) == PEP440_NO_ROOM && parts.release_length == 5, "no room, and how much is needed");

    /* The end of this range would have a number that is too big. */
    hold(pep440_version_in(LIST("!=1.5, >=1.16"), out, sizeof out, &written) == PEP440_OK && written == 4 && memcmp(out, "1.16", 4) == 0, "a version in the list");
    hold(pep440_version_in(LIST("==1.0+cu1, <=1.0"), out, sizeof out, &written) == PEP440_OK && written == 7 && memcmp(out, "1.0+cu1", 7) == 0, "a local version");
    hold(pep440_version_in(LIST(">=1, <=1, !=1"), out, sizeof out, &written) == PEP440_OK && written == 0, "no version in the list");
    hold(pep440_version_in(LIST(""), out, sizeof out, &written) == PEP440_OK && written == 6 && memcmp(out, "0.dev0", 6) == 0, "the least of all versions");
    hold(pep440_version_in(LIST("<1.0.post1, >1.0a1"), out, sizeof out, &written) == PEP440_OK && written == 10 && memcmp(out, "1.0a2.dev0", 10) == 0, "by today's rule");
    hold(pep440_version_in(LIST("===1.0, >=1"), out, sizeof out, &written) == PEP440_OK && written == 3 && memcmp(out, "1.0", 3) == 0, "the version of ===");
    hold(pep440_version_in(LIST("===1.0, >1"), out, sizeof out, &written) == PEP440_OK && written == 0, "no version with ===");
    hold(pep440_version_in(LIST(">1.0, <1.0.1.dev0"), out, sizeof out, &written) == PEP440_OK && written > 0, "a version where none is least");
    hold(pep440_allows(LIST(">1.0, <1.0.1.dev0"), out, written, PEP440_ALL_PRERELEASES, &is) == PEP440_OK && is == 1, "which the list allows");
    hold(pep440_version_in(LIST("=1.0"), out, sizeof out, &written) == PEP440_INVALID_LIST, "no list, so no version in it");
    hold(pep440_ranges(LIST("==18446744073709551615.*"), out, sizeof out, &written) == PEP440_NUMBER_AT_MAX, "no range");
    hold(pep440_ranges(LIST("=1.0"), out, sizeof out, &written) == PEP440_INVALID_LIST, "no list, so no range");
    hold(pep440_ranges(LIST(">1.0,<1.0"), out, sizeof out, &written) == PEP440_OK, "no version");
    hold_text(out, written, "empty\n");
    hold(pep440_ranges(LIST(">=1.0,<2.0,!=1.5"), out, sizeof out, &written) == PEP440_OK, "ranges");
    hold_text(out, written, "[1.0, 1.5)\n(1.5, 2.0~min0)\n");
    hold(pep440_ranges(LIST(">1.0"), out, sizeof out, &written) == PEP440_OK, "a range without an end");
    hold_text(out, written, "(1.0~max0, *)\n");

    /* The range of a list goes by the order alone, so it ends below a local version that the list contains. */
    hold(pep440_ranges(LIST("<=1.0"), out, sizeof out, &written) == PEP440_OK, "a range that ends at 1.0");
    hold_text(out, written, "(*, 1.0]\n");
    hold(pep440_contains(LIST("<=1.0"), VERSION("1.0+cu1"), &is, &early) == PEP440_OK && is == 1, "a local version of 1.0");
    hold(pep440_compare(VERSION("1.0+cu1"), RIGHT("1.0"), &order) == PEP440_OK && order == 1, "which is above 1.0");
}

static int as_bytes(const uint8_t *left, size_t left_length, const uint8_t *right, size_t right_length)
{
    int order = memcmp(left, right, left_length < right_length ? left_length : right_length);
    return order ? order : (left_length > right_length) - (left_length < right_length);
}

static void keep_keys(void)
{
    uint8_t left[64], right[64];
    size_t left_length, right_length;
    uint64_t word, other;
    hold(pep440_sort_key(VERSION("1.9"), left, sizeof left, &left_length) == PEP440_OK, "a key");
    hold(pep440_sort_key(VERSION("1.10rc1"), right, sizeof right, &right_length) == PEP440_OK, "another key");
    hold(as_bytes(left, left_length, right, right_length) < 0, "keys have the order of the versions");
    hold(pep440_sort_key(VERSION("1.9.0"), right, sizeof right, &right_length) == PEP440_OK, "a third key");
    hold(as_bytes(left, left_length, right, right_length) == 0, "equal versions have one key");

    /* Of most versions a number does as well. */
    hold(pep440_word(VERSION("1.10rc1"), &word) == PEP440_OK && pep440_word(VERSION("1.10"), &other) == PEP440_OK && word < other, "words are in order");
    hold(pep440_word(VERSION("1.10+local"), &word) == PEP440_NOT_PACKED, "a version without a word");
}

/* Whether the key lies between some two of these. */
static int is_within(const uint8_t *key, size_t length, const uint8_t *bounds, const size_t *ends, size_t count)
{
    for (size_t place = 0; place < count; place += 2) {
        size_t start = place ? ends[place - 1] : 0, middle = ends[place], end = ends[place + 1];
        if (as_bytes(key, length, bounds + start, middle - start) >= 0 &&
            (end == middle || as_bytes(key, length, bounds + middle, end - middle) < 0))
            return 1;
    }
    return 0;
}

/* Whether the set has the version. */
static int has(const char *version, const uint8_t *bounds, const size_t *ends, size_t count)
{
    uint8_t key[64];
    size_t length;
    hold(pep440_sort_key(VERSION(version), key, sizeof key, &length) == PEP440_OK, "key");
    return is_within(key, length, bounds, ends, count);
}

/* What a database does that has the keys in an index. */
static void ask_boundaries(void)
{
    /* The keys of 1.0 and of 2.0.dev0, and that above the post-releases of 1.0. */
    static const uint8_t from_1_to_2[] = {0, 2, 1, 0, 80, 0, 16, 0, 0, 2, 2, 0, 16, 0, 0, 0}, above_1[] = {0, 2, 1, 0, 80, 32, 16, 0};
    uint8_t set[128];
    size_t ends[8], count, written;
    hold(pep440_boundaries(LIST(">=1.0,<2.0"), set, sizeof set, ends, 8, &written, &count) == PEP440_OK && count == 2, "boundaries");
    hold(written == 16 && ends[0] == 8 && ends[1] == 16 && memcmp(set, from_1_to_2, 16) == 0, "from 1.0 up to 2.0.dev0");
    hold(pep440_boundaries(LIST(">1.0"), set, sizeof set, ends, 8, &written, &count) == PEP440_OK && count == 2, "boundaries");
    hold(written == 8 && ends[0] == 8 && ends[1] == 8 && memcmp(set, above_1, 8) == 0, "above 1.0, without an end");
    hold(pep440_boundaries(LIST(">=1.0,<2.0,!=1.5"), set, sizeof set, ends, 8, &written, &count) == PEP440_OK && count == 4 && ends[3] == written, "two intervals");
    hold(has("1.4.post1", set, ends, count) && has("1.5.post1", set, ends, count) && has("1.5rc1", set, ends, count), "what it has");
    hold(!has("1.5.0", set, ends, count) && !has("1.5+a", set, ends, count) && !has("2.0rc1", set, ends, count), "what it has not");
    hold(pep440_boundaries(LIST("<=1.0"), set, sizeof set, ends, 8, &written, &count) == PEP440_OK && count == 2 && ends[0] == 0, "no lower bound");
    hold(has("1.0+cu1", set, ends, count) && !has("1.0.post0.dev0", set, ends, count), "local versions too, and nothing above them");
    hold(pep440_boundaries(LIST("<1.0.post1"), set, sizeof set, ends, 8, &written, &count) == PEP440_OK && has("1.0rc1", set, ends, count), "by today's rule");
    hold(pep440_boundaries(LIST("==1.0+a,>=1"), set, sizeof set, ends, 8, &written, &count) == PEP440_OK && count == 2, "one local version");
    hold(has("1.0+a", set, ends, count) && !has("1.0", set, ends, count) && !has("1.0+a.b", set, ends, count), "and none beside it");
    hold(pep440_boundaries(LIST("==18446744073709551615.*"), set, sizeof set, ends, 8, &written, &count) == PEP440_OK && count == 2, "up to the next epoch");
    hold(has("18446744073709551615.1", set, ends, count) && !has("1!0.dev0", set, ends, count), "the versions of that release");
    hold(pep440_boundaries(LIST(">1,<1"), set, sizeof set, ends, 8, &written, &count) == PEP440_OK && written == 0 && count == 0, "no interval");
    hold(pep440_boundaries(LIST(">=1.0,<2.0,!=1.5"), set, 1, ends, 8, &written, &count) == PEP440_NO_ROOM && count == 4, "room");
    written = count = 77;
    hold(pep440_boundaries(LIST(">=1, ===1.0"), set, sizeof set, ends, 8, &written, &count) == PEP440_NO_SET && written == 77 && count == 77, "no set");
    hold(pep440_boundaries(LIST("=1.0"), set, sizeof set, ends, 8, &written, &count) == PEP440_INVALID_LIST && count == 77, "no list, so no set");
}

/* Calls that need the members of a list, of a set by itself: nothing is written. */
static void ask_members(const uint8_t *set, size_t length)
{
    uint8_t out[8] = {7}, is = 7, early = 7;
    size_t ends[4], written = 77, count = 77, index = 77;
    hold(pep440_normalize_list(set, length, out, sizeof out, &written) == PEP440_NO_LIST, "normalize_list of a set");
    hold(pep440_compile_list(set, length, out, sizeof out, &written) == PEP440_NO_LIST, "compile_list of a set");
    hold(pep440_specifiers_of(set, length, out, sizeof out, ends, 4, &written, &count) == PEP440_NO_LIST, "specifiers_of a set");
    hold(pep440_any_prerelease(set, length, &is) == PEP440_NO_LIST, "any_prerelease of a set");
    hold(pep440_requests_prereleases(set, length, &is) == PEP440_NO_LIST, "requests_prereleases of a set");
    hold(pep440_version_in(set, length, out, sizeof out, &written) == PEP440_NO_LIST, "version_in of a set");
    hold(pep440_ranges(set, length, out, sizeof out, &written) == PEP440_NO_LIST, "ranges of a set");
    hold(pep440_range_bounds(set, length, out, sizeof out, ends, 4, &written, &count) == PEP440_NO_LIST, "range_bounds of a set");
    hold(pep440_release_range_bounds(set, length, out, sizeof out, ends, 4, &written, &count) == PEP440_NO_LIST, "release_range_bounds of a set");
    hold(pep440_contains(set, length, VERSION("1.0"), &is, &early) == PEP440_NO_LIST, "contains, a set");
    hold(pep440_filter(set, length, NULL, 0, out, sizeof out) == PEP440_NO_LIST, "filter by a set");
    hold(pep440_newest(set, length, NULL, 0, &index) == PEP440_NO_LIST, "newest by a set");
    hold(out[0] == 7 && written == 77 && count == 77 && index == 77 && is == 7 && early == 7, "nothing is written");
}

/* Sets by themselves, as the keys of their intervals. */
static void ask_sets(void)
{
    /* Below 1.0 and from 2.0.dev0 on; from 1.0 up to 2.0.dev0. */
    static const uint8_t outside[] = {7, 0, 1, 8, 0, 2, 1, 0, 80, 0, 16, 0, 1, 8, 0, 2, 2, 0, 16, 0, 0, 0, 0};
    static const uint8_t inside[] = {7, 1, 8, 0, 2, 1, 0, 80, 0, 16, 0, 1, 8, 0, 2, 2, 0, 16, 0, 0, 0};
    uint8_t set[128], again[128], form[64], is = 7;
    size_t length, more, size;
    hold(pep440_complement(LIST(">=1.0,<2.0"), set, sizeof set, &length) == PEP440_OK, "complement");
    hold(length == sizeof outside && memcmp(set, outside, length) == 0, "what is not in it");
    hold(pep440_complement(set, length, again, sizeof again, &more) == PEP440_OK && more == sizeof inside && memcmp(again, inside, more) == 0, "and what is");
    hold(pep440_intersection(LIST("<2.0"), LIST(">=1.0"), again, sizeof again, &more) == PEP440_OK && more == sizeof inside && memcmp(again, inside, more) == 0, "both");
    hold(pep440_union(LIST("<1.0"), LIST(">=1.0"), again, sizeof again, &more) == PEP440_OK && pep440_is_subset(again, more, LIST(""), &is) == PEP440_OK && is == 1, "in all");
    hold(pep440_is_subset(LIST(""), again, more, &is) == PEP440_OK && is == 0, "not all: the pre-releases of 1.0 are in neither");
    hold(pep440_compile_list(LIST(">=1.0,<2.0"), form, sizeof form, &size) == PEP440_OK, "compile_list");
    hold(pep440_intersection(form, size, set, length, again, sizeof again, &more) == PEP440_OK && more == 1 && again[0] == 7, "nothing in both");
    hold(pep440_is_subset(LIST("~=1.4"), form, size, &is) == PEP440_OK && is == 1, "in a compiled list");
    hold(pep440_is_subset(LIST(">=1.0,<=2.0"), form, size, &is) == PEP440_OK && is == 0, "2.0 is not");
    hold(pep440_is_subset(LIST(">1,<1"), LIST("<0.dev0"), &is) == PEP440_OK && is == 1, "no version");
    hold(pep440_union(form, size, set, length, NULL, 0, &more) == PEP440_NO_ROOM && more == 3, "room");
    more = 77, is = 7;
    hold(pep440_union(LIST("=1.0"), LIST(">1"), again, sizeof again, &more) == PEP440_INVALID_LIST && more == 77, "the left one");
    hold(pep440_union(LIST(">1"), LIST("=1.0"), again, sizeof again, &more) == PEP440_INVALID_RIGHT && more == 77, "the right one");
    hold(pep440_is_subset(LIST(">1"), LIST("===1.0"), &is) == PEP440_NO_SET && is == 7, "no set");
    hold(pep440_allows(set, length, VERSION("2.0"), PEP440_NO_PRERELEASES, &is) == PEP440_OK && is == 1, "allowed by a set by itself");
    hold(pep440_allows(set, length, VERSION("1.5"), PEP440_ALL_PRERELEASES, &is) == PEP440_OK && is == 0, "not in it");
    hold(pep440_allows(set, length, VERSION("2.0.dev0"), PEP440_ALL_PRERELEASES, &is) == PEP440_OK && is == 1, "a pre-release in it");
    hold(pep440_allows(set, length, VERSION("2.0.dev0"), PEP440_NO_PRERELEASES, &is) == PEP440_OK && is == 0, "which is not allowed");
    is = 7;
    hold(pep440_allows(set, length, VERSION("1.5"), PEP440_ASKED_PRERELEASES, &is) == PEP440_NO_LIST && is == 7, "no list that asks");
    hold(pep440_allows(set, length, VERSION("latest"), PEP440_ALL_PRERELEASES, &is) == PEP440_INVALID_VERSION && is == 7, "no version for a set");
    hold(pep440_allows(set, length - 1, VERSION("3"), PEP440_ALL_PRERELEASES, &is) == PEP440_INVALID_LIST && is == 7, "a set that is cut");
    ask_members(set, length);
}

/* The bounds that the header names. */
static void ask_bounds(void)
{
    uint8_t out[128], form[64];
    size_t ends[4], written, count, length;
    hold(pep440_compile(TEXT("1.0"), form, sizeof form, &length) == PEP440_OK, "compile");
    hold(pep440_range_bounds(LIST(">=1.0,<2.0"), out, sizeof out, ends, 4, &written, &count) == PEP440_OK && count == 2, "range_bounds");
    hold(ends[0] == 1 + length && out[0] == PEP440_INCLUDED && memcmp(out + 1, form, length) == 0, "1.0 and what follows");
    hold(ends[1] == written && out[ends[0]] == PEP440_EXCLUDED, "up to 2.0~min0");
    hold(pep440_release_range_bounds(LIST(">1!1.0rc1"), out, sizeof out, ends, 4, &written, &count) == PEP440_OK && count == 2, "release_range_bounds");
    hold(ends[0] == 1 + length && out[0] == PEP440_EXCLUDED && memcmp(out + 1, form, length) == 0, "what follows 1.0");
    hold(ends[1] == written && written == ends[0] + 1 && out[ends[0]] == PEP440_NO_BOUND, "without an end");
}

static void many_at_once(void)
{
    static const char *const names[] = {"1.10", "1.9", "latest", "1.10rc1", "2.0"};
    enum { COUNT = 5 };
    pep440_string texts[COUNT];
    uint8_t marks[COUNT], out[128], key[64];
    size_t indices[COUNT], index, written, length;
    static const uint8_t wanted_marks[] = {PEP440_MATCH, PEP440_NO_MATCH, PEP440_NOT_A_VERSION, PEP440_PRERELEASE_MATCH, PEP440_NO_MATCH};
    for (size_t at = 0; at < COUNT; at++)
        texts[at] = *given(names[at], at % 2 ? 'v' : 'r');
    hold(pep440_filter(LIST(">1.9,<2.0"), texts, COUNT, marks, COUNT) == PEP440_OK, "filter");
    hold(memcmp(marks, wanted_marks, COUNT) == 0, "marks");
    hold(pep440_filter(LIST("<1.10.post1,!=1.10"), texts, COUNT, marks, COUNT) == PEP440_OK && marks[0] == PEP440_NO_MATCH && marks[3] == PEP440_PRERELEASE_MATCH,
         "filter by today's rule");
    hold(pep440_newest(LIST(""), texts, COUNT, &index) == PEP440_OK && index == 4, "the newest final release");
    hold(pep440_newest(LIST("<2.0,!=1.10,!=1.9"), texts, COUNT, &index) == PEP440_OK && index == 3, "the newest pre-release, where no final one is contained");
    hold(pep440_newest(LIST("<=1.10rc1"), texts, COUNT, &index) == PEP440_OK && index == 3, "pre-releases that are asked for");
    hold(pep440_newest(LIST("<1.10.post1,>1.10a1,!=1.10"), texts, COUNT, &index) == PEP440_OK && index == 3, "newest by today's rule");
    index = 77;
    hold(pep440_newest(LIST(">3"), texts, COUNT, &index) == PEP440_NONE_FOUND && index == 77, "none is contained");
    hold(pep440_newest(LIST(">=1;"), texts, COUNT, &index) == PEP440_INVALID_LIST && index == 77, "newest, no list");
    hold(pep440_sort(texts, COUNT, indices, COUNT, &index) == PEP440_INVALID_VERSION && index == 2, "the first that is no version");
    hold(pep440_sort_keys(texts, COUNT, out, sizeof out, indices, COUNT, &written, &index) == PEP440_INVALID_VERSION && index == 2, "no keys");
    hold(pep440_compile_all(texts, COUNT, out, sizeof out, indices, COUNT, &written, &index) == PEP440_INVALID_VERSION && index == 2, "no forms");
    texts[2] = texts[4];
    hold(pep440_sort(texts, COUNT, indices, COUNT, &index) == PEP440_OK, "sort");
    hold(indices[0] == 1 && indices[1] == 3 && indices[2] == 0 && indices[3] == 2 && indices[4] == 4, "indices");
    hold(pep440_sort_keys(texts, COUNT, out, sizeof out, indices, COUNT, &written, &index) == PEP440_OK && indices[4] == written, "sort_keys");
    hold(pep440_sort_key(TEXT("1.9"), key, sizeof key, &length) == PEP440_OK && as_bytes(out + indices[0], indices[1] - indices[0], key, length) == 0,
         "the second key is that of 1.9");
    hold(pep440_compile_all(texts, COUNT, out, sizeof out, indices, COUNT, &written, &index) == PEP440_OK && indices[4] == written, "compile_all");
    hold(pep440_compile(TEXT("1.9"), key, sizeof key, &length) == PEP440_OK && as_bytes(out + indices[0], indices[1] - indices[0], key, length) == 0,
         "the second form is that of 1.9");
}

/* What the header has for strings with a zero at their end. */
static void with_a_zero(void)
{
    char text[10];
    uint8_t key[64], bytes[64], is, early;
    size_t length, count;
    int8_t order;
    hold(pep440_compare_strings("1.10", "1.9", &order) == PEP440_OK && order == 1, "compare_strings");
    hold(pep440_contains_string(">=1.16, <2.0", "1.19", &is, &early) == PEP440_OK && is == 1 && early == 0, "contains_string");
    hold(pep440_normalize_string("1.0-1", text, 10) == PEP440_OK && strcmp(text, "1.0.post1") == 0, "normalize_string");
    memset(text, 'x', sizeof text);
    hold(pep440_normalize_string("1.0-1", text, 9) == PEP440_NO_ROOM && text[0] == 'x', "no room for the zero");
    hold(pep440_normalize_string("1", text, 0) == PEP440_NO_ROOM && text[0] == 'x', "no room at all");
    hold(pep440_normalize_string("latest", text, 10) == PEP440_INVALID_VERSION && text[0] == 'x', "no version to write");
    hold(pep440_sort_key_string("1.0", key, sizeof key, &length) == PEP440_OK, "sort_key_string");
    hold(pep440_compile_string("1.0", bytes, sizeof bytes, &count) == PEP440_OK && count == length + 2 && memcmp(bytes + 1, key, length) == 0,
         "compile_string: the key between 4 and a 1");
    hold(pep440_compile_list_string("==1", bytes, sizeof bytes, &length) == PEP440_OK && bytes[0] == 6, "compile_list_string");
    hold(pep440_compile_list_string("===1", bytes, sizeof bytes, &length) == PEP440_OK && bytes[0] == 5, "compile_list_string, no set");
    hold(pep440_string_of("1.0").length == 3 && memcmp(pep440_string_of("1.0").bytes, "1.0", 3) == 0, "string_of");
    for (uint8_t status = 0; status <= PEP440_NO_LIST; status++)
        hold(strcmp(pep440_status_text(status), pep440_status_text(255)) != 0 || status == 11, "status_text");
}

int main(void)
{
    hold(pep440_version_of_library() == PEP440_VERSION, "the library is of the header's version");
    take_strings();
    with_a_zero();
    for (turn = STRINGS; turn <= MEMBERS; turn++) {
        normalize();
        build();
        edit();
        compare_and_match();
        allow();
        take_apart();
        keep_keys();
        ask_boundaries();
        ask_sets();
        ask_bounds();
        many_at_once();
    }
    for (size_t at = 0; at < how_many; at++)
        free((void *)kept[at].bytes.bytes);
    printf("%d wrong\n", wrong);
    return wrong ? EXIT_FAILURE : EXIT_SUCCESS;
}
