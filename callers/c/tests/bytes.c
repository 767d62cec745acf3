/* Compiled bytes that no call wrote, and those of another process.

   bytes         literal bytes, made by hand of their definition; 200,000 random byte strings, and every change of one byte of 1,000 compiled
                 versions and lists: each is rejected, or is a string, or is what its normalized form is compiled to, a list with or without its set,
                 or is a list that no string denotes, as <1+a
   bytes write   prints the 1,000 compiled forms, each behind its length
   bytes read    holds what another process wrote so against its own
   bytes allows  of each line, a list, a tab and a version, prints whether the list allows it without pre-releases, with all and as it asks, as `010`, if
                 strings and compiled forms say the same, else `differ` */
#include <stdio.h>
#include <stdlib.h>
#include <string.h>

#include "pep440.h"

enum { RANDOM = 200000, VERSIONS = 850, LISTS = 150, ROOM = 1024 };

/* A string, or the bytes of a compiled form. */
typedef struct {
    uint8_t bytes[ROOM];
    size_t length;
} Bytes;

#define OF(bytes_of) (bytes_of)->bytes, (bytes_of)->length
#define TO(bytes_of) (bytes_of)->bytes, ROOM, &(bytes_of)->length

static int wrong;
static size_t rejected, printed, without_set, unwritten, strings, sets;

static void hold(int is_right, const char *what)
{
    if (!is_right && wrong++ < 10)
        printf("WRONG: %s\n", what);
}

static uint64_t state = 440;

/* A number below the bound. */
static unsigned below(unsigned bound)
{
    state = state * 6364136223846793005u + 1442695040888963407u;
    return (unsigned)((state >> 33) % bound);
}

static void add(Bytes *text, const char *format, unsigned number)
{
    text->length += (size_t)snprintf((char *)text->bytes + text->length, ROOM - text->length, format, number);
}

/* Most versions are a release with a suffix; a third has an epoch, a great number or a local part. */
static void some_version(Bytes *text)
{
    int is_long = below(3) == 0;
    unsigned part = is_long ? below(3) : 3;
    text->length = 0;
    if (part == 0)
        add(text, "%u!", 1 + below(3));
    add(text, "%u", below(3) ? below(30) : below(3000));
    for (unsigned more = below(3); more > 0; more--)
        add(text, ".%u", below(20));
    if (below(3) == 0)
        add(text, "rc%u", below(4));
    if (part == 1)
        add(text, ".post%u", 2097152 + below(9));
    else if (below(4) == 0)
        add(text, ".dev%u", below(4));
    /* (C says no order for two random numbers in one call, and each machine is to make the same forms) */
    const char *local = part != 2 ? "" : below(2) ? "+ubuntu.%u" : "+%u";
    if (part == 2)
        add(text, local, below(9));
}

static void some_list(Bytes *list)
{
    static const char *const operators[] = {">=", "<", "!=", "==", "<=", ">"};
    list->length = 0;
    for (unsigned more = 1 + below(2); more > 0; more--) {
        add(list, operators[below(6)], 0);
        add(list, "%u", below(30));
        add(list, more > 1 ? ".%u," : ".%u", below(20));
    }
}

/* The compiled form with this number; they are made in order. */
static void some_form(size_t number, Bytes *form)
{
    Bytes text;
    if (number < VERSIONS) {
        some_version(&text);
        hold(pep440_compile(OF(&text), TO(form)) == PEP440_OK, "compile");
    } else {
        some_list(&text);
        hold(pep440_compile_list(OF(&text), TO(form)) == PEP440_OK, "compile_list");
    }
}

static int are_same(const Bytes *one, const Bytes *other)
{
    return one->length == other->length && memcmp(one->bytes, other->bytes, one->length) == 0;
}

static int have_same_parts(const Bytes *form, const Bytes *text)
{
    pep440_parts parts, of_text;
    uint64_t release[64], release_of_text[64];
    if (pep440_parts_of(OF(form), &parts, release, 64) != PEP440_OK || pep440_parts_of(OF(text), &of_text, release_of_text, 64) != PEP440_OK)
        return 0;
    return parts.epoch == of_text.epoch && parts.pre_kind == of_text.pre_kind && parts.pre == of_text.pre && parts.has_post == of_text.has_post &&
           parts.post == of_text.post && parts.has_dev == of_text.has_dev && parts.dev == of_text.dev && parts.has_local == of_text.has_local &&
           parts.release_length == of_text.release_length && memcmp(release, release_of_text, parts.release_length * sizeof *release) == 0;
}

/* >=1, with its set and without; 1; and 1b2. */
static const uint8_t list[] = {6, 1, 11, 1, 8, 0, 2, 1, 0, 80, 0, 16, 0, 0, 5, 25, 0, 2, 1, 0, 80, 0, 16, 0}, members[] = {5, 25, 0, 2, 1, 0, 80, 0, 16, 0};
static const uint8_t version[] = {4, 0, 2, 1, 0, 80, 0, 16, 0}, early_version[] = {4, 0, 2, 1, 0, 49, 2, 0, 16, 0};

/* Why bytes are no list with members. */
static uint8_t rejection(const Bytes *form) { return form->length > 0 && form->bytes[0] == 7 ? PEP440_NO_LIST : PEP440_INVALID_LIST; }

/* Bytes that begin as a compiled version are compared as they lie, with another one or a string; others are a string. */
static void compare_in_place(const Bytes *form, const uint8_t *other, size_t length)
{
    int8_t order = 0;
    int is_compiled = form->length > 0 && form->bytes[0] == 4;
    uint8_t status = pep440_compare(OF(form), other, length, &order);
    hold((!is_compiled && status == PEP440_INVALID_VERSION) || (status == PEP440_OK && order >= -1 && order <= 1), "compare, left");
    status = pep440_compare(other, length, OF(form), &order);
    hold((!is_compiled && status == PEP440_INVALID_RIGHT) || (status == PEP440_OK && order >= -1 && order <= 1), "compare, right");
}

/* Calls that read compiled bytes as they lie: of any bytes they say that these are invalid, or write some result. */
static void ask_in_place(const Bytes *form)
{
    compare_in_place(form, version, sizeof version);
    compare_in_place(form, (const uint8_t *)"1", 1);
    uint8_t is = 0, early = 0, status = pep440_contains(list, sizeof list, OF(form), &is, &early);
    hold(status == PEP440_INVALID_VERSION || (status == PEP440_OK && is <= 1 && early <= 1), "contains, a version");
    status = pep440_contains(OF(form), version, sizeof version, &is, &early);
    hold(status == rejection(form) || (status == PEP440_OK && is <= 1 && early <= 1), "contains, a list");
    status = pep440_contains(OF(form), (const uint8_t *)"1", 1, &is, &early);
    hold(status == rejection(form) || (status == PEP440_OK && is <= 1 && early <= 1), "contains, a list and a string");
    status = pep440_contains(members, sizeof members, OF(form), &is, &early);
    hold(status == PEP440_INVALID_VERSION || (status == PEP440_OK && is <= 1 && early <= 1), "contains, a version, without the set");
    for (uint8_t prereleases = 0; prereleases <= PEP440_ASKED_PRERELEASES; prereleases++) {
        status = pep440_allows(list, sizeof list, OF(form), prereleases, &is);
        hold(status == PEP440_INVALID_VERSION || (status == PEP440_OK && is <= 1), "allows, a version");
        int asks_set = form->length > 0 && form->bytes[0] == 7 && prereleases == PEP440_ASKED_PRERELEASES;
        status = pep440_allows(OF(form), early_version, sizeof early_version, prereleases, &is);
        hold(asks_set ? status == PEP440_NO_LIST : status == PEP440_INVALID_LIST || (status == PEP440_OK && is <= 1), "allows, a list");
        status = pep440_allows(OF(form), (const uint8_t *)"1", 1, prereleases, &is);
        hold(asks_set ? status == PEP440_NO_LIST : status == PEP440_INVALID_LIST || (status == PEP440_OK && is <= 1), "allows, a string");
    }
}

/* Bytes that are no version; the calls on a list have one that is a string, and test them as a whole. */
static void hold_no_version(const Bytes *form)
{
    Bytes found;
    uint8_t is = 7, early = 7, mark = 7;
    pep440_parts parts;
    uint64_t release[64];
    size_t index = 7;
    const pep440_string one = {OF(form)};
    hold(pep440_parts_of(OF(form), &parts, release, 64) == PEP440_INVALID_VERSION, "parts_of");
    hold(pep440_compile(OF(form), TO(&found)) == PEP440_INVALID_VERSION, "compile");
    hold(pep440_sort_key(OF(form), TO(&found)) == PEP440_INVALID_VERSION, "sort_key");
    hold(pep440_contains((const uint8_t *)">=1", 3, OF(form), &is, &early) == PEP440_INVALID_VERSION && is == 7, "contains, a list that is a string");
    hold(pep440_allows((const uint8_t *)">=1", 3, OF(form), 1, &is) == PEP440_INVALID_VERSION && is == 7, "allows, a list that is a string");
    hold(pep440_allows(members, sizeof members, OF(form), 1, &is) == PEP440_INVALID_VERSION && is == 7, "allows, a list without its set");
    hold(pep440_filter(list, sizeof list, &one, 1, &mark, 1) == PEP440_OK && mark == PEP440_NOT_A_VERSION, "filter");
    hold(pep440_sort(&one, 1, &index, 1, &index) == PEP440_INVALID_VERSION && index == 0, "sort");
}

/* Bytes that denote a version are a string, or those that its normalized form is compiled to. */
static void hold_version(const Bytes *form)
{
    Bytes text, key, key_of_text, again, own;
    int8_t order = 1;
    uint8_t status = pep440_normalize(OF(form), TO(&text)), told = pep440_version_error(OF(form), TO(&key));
    hold(told == PEP440_OK && (key.length == 0) == (status == PEP440_OK), "version_error");
    if (status == PEP440_INVALID_VERSION) {
        rejected++;
        hold_no_version(form);
        return;
    }
    hold(status == PEP440_OK, "normalize");
    hold(pep440_compile(OF(&text), TO(&again)) == PEP440_OK && pep440_compile(OF(form), TO(&own)) == PEP440_OK && are_same(&own, &again),
         "the compiled form is that of the printed version");
    hold(have_same_parts(form, &text), "the parts are those of the printed version");
    hold(pep440_compare(OF(form), OF(&again), &order) == PEP440_OK && order == 0, "a version is equal to its compiled form");
    hold(pep440_compare(OF(&text), OF(form), &order) == PEP440_OK && order == 0, "a string is equal to it");
    hold(pep440_sort_key(OF(form), TO(&key)) == PEP440_OK && pep440_sort_key(OF(&text), TO(&key_of_text)) == PEP440_OK &&
             are_same(&key, &key_of_text) && memcmp(again.bytes + 1, key.bytes, key.length) == 0,
         "the key is that of the printed version, and lies after the first byte of its compiled form");
    if (form->bytes[0] != 4) {
        strings++;
        return;
    }
    printed++;
    hold(are_same(form, &again), "the bytes are those of the printed version");
}

/* The same of bytes that are no list. */
static void hold_no_list(const Bytes *form)
{
    Bytes found;
    size_t ends[1], count = 7;
    uint8_t any = 7, early = 7;
    hold(pep440_any_prerelease(OF(form), &any) == rejection(form) && any == 7, "any_prerelease");
    hold(pep440_compile_list(OF(form), TO(&found)) == rejection(form), "compile_list");
    hold((form->length > 0 && (form->bytes[0] == 5 || form->bytes[0] == 6)) ||
             (pep440_contains(OF(form), (const uint8_t *)"1", 1, &any, &early) == rejection(form) && any == 7), "contains a string");
    if (form->length > 0 && (form->bytes[0] == 6 || form->bytes[0] == 7))
        return; /* taken as they lie */
    hold(pep440_boundaries(OF(form), found.bytes, ROOM, ends, 1, &found.length, &count) == PEP440_INVALID_LIST && count == 7, "boundaries");
    hold(pep440_allows(OF(form), (const uint8_t *)"1", 1, 1, &any) == PEP440_INVALID_LIST && any == 7 &&
             pep440_allows(OF(form), version, sizeof version, 1, &any) == PEP440_INVALID_LIST && any == 7, "allows, a list without its set");
}

/* Whether no string denotes the list: a member orders by a version with a local part. */
static int is_unwritten(const Bytes *text)
{
    Bytes error;
    int is_told = pep440_list_error(OF(text), TO(&error)) == PEP440_OK && error.length < ROOM;
    error.bytes[is_told ? error.length : 0] = 0;
    return strstr((const char *)error.bytes, "incompatible with versions containing non-empty local segments") != NULL;
}

/* Bytes that denote a list are a string, or those that its normalized form is compiled to, or these without the set, or of a list that no string denotes. */
static void hold_list(const Bytes *form)
{
    Bytes text, again, own;
    uint8_t status = pep440_normalize_list(OF(form), TO(&text)), told = pep440_list_error(OF(form), TO(&again));
    int is_compiled = form->length > 0 && (form->bytes[0] == 5 || form->bytes[0] == 6);
    hold(told == PEP440_OK && (again.length == 0) == (status == PEP440_OK), "list_error");
    if (status == rejection(form)) {
        rejected++;
        hold_no_list(form);
        return;
    }
    hold(status == PEP440_OK, "normalize_list");
    hold(pep440_compile_list(OF(form), TO(&own)) == PEP440_OK, "compile_list");
    if (is_unwritten(&text)) {
        unwritten++;
        hold(form->bytes[0] == 5 && are_same(form, &own), "a list that no string denotes is its own compiled form");
        return;
    }
    hold(pep440_compile_list(OF(&text), TO(&again)) == PEP440_OK && are_same(&own, &again), "the compiled form is that of the printed list");
    if (!is_compiled)
        strings++;
    else if (form->bytes[0] == own.bytes[0])
        printed++, hold(are_same(form, &own), "the bytes are those of the printed list");
    else {
        without_set++;
        hold(form->bytes[0] == 5 && form->length < own.length && memcmp(own.bytes + own.length - form->length, form->bytes, form->length) == 0,
             "the bytes are those of the printed list without its set");
    }
}

/* Bytes that begin as a set by itself are taken as they lie, or rejected. */
static void hold_set(const Bytes *form)
{
    Bytes outside;
    if (form->length == 0 || form->bytes[0] != 7)
        return;
    uint8_t status = pep440_complement(OF(form), TO(&outside));
    sets += status == PEP440_OK;
    hold(status == PEP440_INVALID_LIST || (status == PEP440_OK && outside.bytes[0] == 7 && outside.length <= form->length + 2), "complement");
}

/* The set of a list is what is not in what is not in it. */
static void hold_set_of(const Bytes *list)
{
    Bytes outside, inside;
    uint8_t is = 7, back = 7;
    hold(pep440_complement(OF(list), TO(&outside)) == PEP440_OK && pep440_complement(OF(&outside), TO(&inside)) == PEP440_OK, "complement of a list");
    hold(pep440_is_subset(OF(list), OF(&inside), &is) == PEP440_OK && is == 1, "in its set");
    hold(pep440_is_subset(OF(&inside), OF(list), &back) == PEP440_OK && back == 1, "no more than its set");
}

static void hold_bytes(const Bytes *form)
{
    hold_set(form);
    ask_in_place(form);
    hold_version(form);
    hold_list(form);
}

/* ---- literal bytes */

#define BYTES(...) {{__VA_ARGS__}, sizeof((uint8_t[]){__VA_ARGS__})}

/* 4; the epoch; the release and 0; stage, post and dev; the local part and 0; a byte 1 for each zero that ends the release. */
static const struct {
    const char *text;
    Bytes bytes;
} FORMS[] = {
    {"1.2.3", BYTES(4, 0, 2, 1, 2, 2, 2, 3, 0, 80, 0, 16, 0)},
    {"0", BYTES(4, 0, 0, 80, 0, 16, 0, 1)},
    {"1.0", BYTES(4, 0, 2, 1, 0, 80, 0, 16, 0, 1)},
    {"1.0.0", BYTES(4, 0, 2, 1, 0, 80, 0, 16, 0, 1, 1)},
    {"0.0.1.0", BYTES(4, 0, 1, 1, 2, 1, 0, 80, 0, 16, 0, 1)},
    {"2024.10.20240101", BYTES(4, 0, 3, 7, 232, 2, 10, 5, 1, 52, 214, 229, 0, 80, 0, 16, 0)},
    {"18446744073709551615", BYTES(4, 0, 9, 255, 255, 255, 255, 255, 255, 255, 255, 0, 80, 0, 16, 0)},
    {"1!2", BYTES(4, 1, 1, 2, 2, 0, 80, 0, 16, 0)},
    {"1.dev0", BYTES(4, 0, 2, 1, 0, 16, 0, 0, 0)},
    {"1a0", BYTES(4, 0, 2, 1, 0, 32, 0, 16, 0)},
    {"1b1", BYTES(4, 0, 2, 1, 0, 49, 1, 0, 16, 0)},
    {"1rc256", BYTES(4, 0, 2, 1, 0, 66, 1, 0, 0, 16, 0)},
    {"1rc2.dev3", BYTES(4, 0, 2, 1, 0, 65, 2, 0, 1, 3, 0)},
    {"1.post0", BYTES(4, 0, 2, 1, 0, 80, 16, 16, 0)},
    {"1.post4.dev5", BYTES(4, 0, 2, 1, 0, 80, 17, 4, 1, 5, 0)},
    {"1.0+cu118", BYTES(4, 0, 2, 1, 0, 80, 0, 16, 1, 'c', 'u', '1', '1', '8', 0, 0, 1)},
    {"1+a.0.7", BYTES(4, 0, 2, 1, 0, 80, 0, 16, 1, 'a', 0, 2, 3, 7, 0)},
};

/* 6; how many bytes the set has; of each interval the low key and the high key, each after its size; and the members: 5, and of each 16 and the number
   of its operator, and its version without the 4. With === the members alone. */
static const struct {
    const char *text;
    Bytes bytes;
} LIST_FORMS[] = {
    {"", BYTES(6, 1, 2, 0, 0, 5)},
    {"==1", BYTES(6, 1, 20, 1, 8, 0, 2, 1, 0, 80, 0, 16, 0, 1, 8, 0, 2, 1, 0, 80, 16, 0, 0, 5, 16, 0, 2, 1, 0, 80, 0, 16, 0)},
    {"==1.*", BYTES(6, 1, 20, 1, 8, 0, 2, 1, 0, 16, 0, 0, 0, 1, 8, 0, 2, 2, 0, 16, 0, 0, 0, 5, 17, 0, 2, 1, 0, 80, 0, 16, 0)},
    {"===1", BYTES(5, 18, 0, 2, 1, 0, 80, 0, 16, 0)},
    {"!=1", BYTES(6, 1, 22, 0, 1, 8, 0, 2, 1, 0, 80, 0, 16, 0, 1, 8, 0, 2, 1, 0, 80, 16, 0, 0, 0, 5, 19, 0, 2, 1, 0, 80, 0, 16, 0)},
    {"!=1.*", BYTES(6, 1, 22, 0, 1, 8, 0, 2, 1, 0, 16, 0, 0, 0, 1, 8, 0, 2, 2, 0, 16, 0, 0, 0, 0, 5, 20, 0, 2, 1, 0, 80, 0, 16, 0)},
    {"~=1.0", BYTES(6, 1, 20, 1, 8, 0, 2, 1, 0, 80, 0, 16, 0, 1, 8, 0, 2, 2, 0, 16, 0, 0, 0, 5, 21, 0, 2, 1, 0, 80, 0, 16, 0, 1)},
    {"<1", BYTES(6, 1, 11, 0, 1, 8, 0, 2, 1, 0, 16, 0, 0, 0, 5, 22, 0, 2, 1, 0, 80, 0, 16, 0)},
    {"<=1", BYTES(6, 1, 11, 0, 1, 8, 0, 2, 1, 0, 80, 16, 0, 0, 5, 23, 0, 2, 1, 0, 80, 0, 16, 0)},
    {">1", BYTES(6, 1, 11, 1, 8, 0, 2, 1, 0, 80, 32, 16, 0, 0, 5, 24, 0, 2, 1, 0, 80, 0, 16, 0)},
    {">=1", BYTES(6, 1, 11, 1, 8, 0, 2, 1, 0, 80, 0, 16, 0, 0, 5, 25, 0, 2, 1, 0, 80, 0, 16, 0)},
    {"==1+a", BYTES(6, 1, 27, 1, 11, 0, 2, 1, 0, 80, 0, 16, 1, 'a', 0, 0, 1, 12, 0, 2, 1, 0, 80, 0, 16, 1, 'a', 0, 0, 0, 5, 16, 0, 2, 1, 0, 80, 0,
         16, 1, 'a', 0, 0)},
    {"==1+a,==1", BYTES(6, 1, 27, 1, 11, 0, 2, 1, 0, 80, 0, 16, 1, 'a', 0, 0, 1, 12, 0, 2, 1, 0, 80, 0, 16, 1, 'a', 0, 0, 0, 5, 16, 0, 2, 1, 0, 80,
         0, 16, 0, 16, 0, 2, 1, 0, 80, 0, 16, 1, 'a', 0, 0)},
    {"<2,>=1.0", BYTES(6, 1, 20, 1, 8, 0, 2, 1, 0, 80, 0, 16, 0, 1, 8, 0, 2, 2, 0, 16, 0, 0, 0, 5, 25, 0, 2, 1, 0, 80, 0, 16, 0, 1, 22, 0, 2, 2, 0,
         80, 0, 16, 0)},
    {">1,<1", BYTES(6, 0, 5, 24, 0, 2, 1, 0, 80, 0, 16, 0, 22, 0, 2, 1, 0, 80, 0, 16, 0)},
    {"!=1+a,<2rc1", BYTES(6, 1, 39, 0, 1, 11, 0, 2, 1, 0, 80, 0, 16, 1, 'a', 0, 0, 1, 12, 0, 2, 1, 0, 80, 0, 16, 1, 'a', 0, 0, 0, 1, 9, 0, 2, 2, 0,
         65, 1, 0, 16, 0, 5, 19, 0, 2, 1, 0, 80, 0, 16, 1, 'a', 0, 0, 22, 0, 2, 2, 0, 65, 1, 0, 16, 0)},
    {">=0.dev0", BYTES(6, 1, 2, 0, 0, 5, 25, 0, 0, 16, 0, 0, 0, 1)},
};

/* Of a version: other formats, no version, bytes after it, numbers with a zero in front or of nine bytes, a release that ends with a zero, ranks that
   no string has, local strings that none has. Of a list: a version's format, no operator, an order that falls, ~= with one number; a local part beside >= with a set,
   no set, that of another list, one with ===, a size with a zero in front, one too great, no members, members of format 6. */
static const Bytes NOTHING[] = {
    BYTES(0), BYTES(4), BYTES(5, 4), BYTES(1, 2, 0, 1, 0, 0, 0, 0xa0, 0, 0), BYTES(3, 0, 0, 0, 0, 0, 0, 0, 0), BYTES(4, 0, 0, 80, 0, 16, 0),
    BYTES(4, 0, 2, 1, 0, 80, 0, 16), BYTES(4, 0, 2, 1, 0, 80, 0, 16, 0, 2), BYTES(4, 0, 2, 1, 0, 80, 0, 16, 0, 1, 0), BYTES(4, 1, 0, 2, 1, 0, 80, 0, 16, 0),
    BYTES(4, 0, 3, 0, 1, 0, 80, 0, 16, 0), BYTES(4, 0, 10, 1, 0, 0, 0, 0, 0, 0, 0, 0, 0, 80, 0, 16, 0), BYTES(4, 0, 2, 1, 1, 0, 80, 0, 16, 0),
    BYTES(4, 16, 2, 1, 0, 80, 0, 16, 0), BYTES(4, 0, 2, 1, 0, 0, 0, 0, 0), BYTES(4, 0, 2, 1, 0, 80, 32, 16, 0), BYTES(4, 0, 2, 1, 0, 96, 0, 16, 0),
    BYTES(4, 0, 2, 1, 0, 16, 0, 16, 0), BYTES(4, 0, 2, 1, 0, 16, 16, 0, 0), BYTES(4, 0, 2, 1, 0, 80, 0, 0, 0), BYTES(4, 0, 2, 1, 0, 81, 1, 0, 16, 0),
    BYTES(4, 0, 2, 1, 0, 80, 1, 1, 16, 0), BYTES(4, 0, 2, 1, 0, 80, 0, 32, 0), BYTES(4, 0, 2, 1, 0, 80, 0, 16, 1, 0, 0),
    BYTES(4, 0, 2, 1, 0, 80, 0, 16, 1, 'A', 0, 0), BYTES(4, 0, 2, 1, 0, 80, 0, 16, 1, '7', 0, 0), BYTES(4, 0, 2, 1, 0, 80, 0, 16, 1, 'a', '.', 'b', 0, 0),
    BYTES(5, 26, 0, 2, 1, 0, 80, 0, 16, 0), BYTES(5, 15, 0, 2, 1, 0, 80, 0, 16, 0), BYTES(5, 9, 0, 2, 1, 0, 80, 0, 16, 0),
    BYTES(5, 22, 0, 2, 2, 0, 80, 0, 16, 0, 25, 0, 2, 1, 0, 80, 0, 16, 0, 1), BYTES(5, 21, 0, 2, 1, 0, 80, 0, 16, 0), BYTES(5, 16), BYTES(4, 25, 0, 2, 1),
    BYTES(5, 25, 4, 0, 2, 1, 0, 80, 0, 16, 0), BYTES(5, 25, 0, 2, 1, 0, 80, 0, 16, 0, 1, 0),
    BYTES(6, 1, 2, 0, 0, 5, 25, 0, 2, 1, 0, 80, 0, 16, 1, 'a', 0, 0), BYTES(6), BYTES(6, 0), BYTES(6, 0, 5), BYTES(6, 1, 2, 0, 0, 5, 25, 0, 2, 1, 0, 80, 0, 16, 0),
    BYTES(6, 1, 2, 0, 0, 5, 18, 0, 2, 1, 0, 80, 0, 16, 0), BYTES(6, 2, 0, 2, 0, 0, 5), BYTES(6, 1, 3, 0, 0, 5), BYTES(6, 9, 1, 0, 0, 0, 0, 0, 0, 0, 2, 0, 0, 5),
    BYTES(6, 1, 2, 0, 0), BYTES(6, 1, 2, 0, 0, 6, 1, 2, 0, 0, 5), BYTES(6, 1, 2, 0, 0, 5, 4)};

#define EACH(place, table) (size_t place = 0; place < sizeof(table) / sizeof *(table); place++)

/* Leaves the members, which are the list in format 5. */
static void drop_set(Bytes *form)
{
    size_t number = 2 + form->bytes[1], set = 0;
    if (form->bytes[0] == 5)
        return;
    for (size_t at = 2; at < number; at++)
        set = set * 256 + form->bytes[at];
    form->length -= number + set;
    memmove(form->bytes, form->bytes + number + set, form->length);
}

static void hold_literals(void)
{
    static const Bytes below_local = BYTES(5, 22, 0, 2, 1, 0, 80, 0, 16, 1, 97, 0, 0); /* <1+a */
    Bytes found;
    hold_bytes(&below_local);
    for EACH (place, FORMS) {
        const uint8_t *text = (const uint8_t *)FORMS[place].text;
        hold(pep440_compile(text, strlen(FORMS[place].text), TO(&found)) == PEP440_OK && are_same(&found, &FORMS[place].bytes), FORMS[place].text);
        hold_bytes(&FORMS[place].bytes);
    }
    for EACH (place, LIST_FORMS) {
        const uint8_t *text = (const uint8_t *)LIST_FORMS[place].text;
        hold(pep440_compile_list(text, strlen(LIST_FORMS[place].text), TO(&found)) == PEP440_OK && are_same(&found, &LIST_FORMS[place].bytes),
             LIST_FORMS[place].text);
        hold_bytes(&LIST_FORMS[place].bytes);
        drop_set(&found);
        hold_bytes(&found);
    }
    for EACH (place, NOTHING) {
        hold(pep440_normalize(OF(&NOTHING[place]), TO(&found)) == PEP440_INVALID_VERSION, "bytes that denote no version");
        hold(pep440_normalize_list(OF(&NOTHING[place]), TO(&found)) == PEP440_INVALID_LIST, "bytes that denote no list");
        hold_bytes(&NOTHING[place]);
    }
}

static void change_byte(Bytes *form, unsigned at) { form->bytes[at] = (uint8_t)below(256); }

/* Random bytes; those that begin as a version, a list or a set; or a compiled form, maybe without its set, some of whose bytes are replaced, or which is cut. */
static void some_bytes(Bytes *form)
{
    unsigned kind = below(3);
    if (kind < 2)
        form->length = 1 + below(kind == 0 ? 80 : 16);
    else
        some_form(below(VERSIONS + LISTS), form);
    if (kind < 2)
        for (size_t at = 0; at < form->length; at++)
            form->bytes[at] = (uint8_t)(below(2) ? below(256) : below(4));
    if (kind == 1)
        form->bytes[0] = (uint8_t)(4 + below(4));
    if (kind == 2) {
        if (form->bytes[0] == 6 && below(2))
            drop_set(form);
        for (unsigned more = 1 + below(4); more > 0; more--)
            change_byte(form, below((unsigned)form->length));
        if (below(4) == 0)
            form->length = below((unsigned)form->length);
    }
}

static void change_each_byte(Bytes *form)
{
    for (size_t at = 0; at < form->length; at++) {
        uint8_t own = form->bytes[at];
        for (unsigned other = 1; other < 256; other++) {
            form->bytes[at] = (uint8_t)(own ^ other);
            hold_bytes(form);
        }
        form->bytes[at] = own;
    }
}

static int write_forms(void)
{
    Bytes form;
    for (size_t number = 0; number < VERSIONS + LISTS; number++) {
        some_form(number, &form);
        if (fwrite(&form.length, sizeof form.length, 1, stdout) != 1 || fwrite(form.bytes, 1, form.length, stdout) != form.length)
            return EXIT_FAILURE;
    }
    return wrong || fflush(stdout) ? EXIT_FAILURE : EXIT_SUCCESS;
}

static int read_forms(void)
{
    Bytes form, own, text, own_text;
    for (size_t number = 0; number < VERSIONS + LISTS; number++) {
        if (fread(&form.length, sizeof form.length, 1, stdin) != 1 || form.length > ROOM || fread(form.bytes, 1, form.length, stdin) != form.length)
            return EXIT_FAILURE;
        some_form(number, &own);
        hold(are_same(&form, &own), "the bytes of another process");
        if (number < VERSIONS)
            hold(pep440_normalize(OF(&form), TO(&text)) == PEP440_OK && pep440_normalize(OF(&own), TO(&own_text)) == PEP440_OK, "read");
        else
            hold(pep440_normalize_list(OF(&form), TO(&text)) == PEP440_OK && pep440_normalize_list(OF(&own), TO(&own_text)) == PEP440_OK, "read");
        hold(are_same(&text, &own_text), "what they denote");
    }
    printf("%d compiled forms of another process are read\n", VERSIONS + LISTS);
    return wrong ? EXIT_FAILURE : EXIT_SUCCESS;
}

/* ---- lists and versions of standard input */

/* Whether the list allows the version; 8 where it is no list or no version. */
static unsigned allows(const Bytes *of, const Bytes *version, unsigned prereleases)
{
    uint8_t is = 8;
    return pep440_allows(OF(of), OF(version), (uint8_t)prereleases, &is) == PEP440_OK ? is : 8;
}

static int print_allowed(void)
{
    static char line[4 * ROOM];
    Bytes lists[3], versions[2];
    while (fgets(line, sizeof line, stdin)) {
        char said[] = "010";
        size_t length = strcspn(line, "\t"), end = strcspn(line, "\n");
        if (end < length || length > ROOM || end - length > ROOM)
            return EXIT_FAILURE;
        memcpy(lists[0].bytes, line, lists[0].length = length);
        memcpy(versions[0].bytes, line + length + 1, versions[0].length = end - length - 1);
        /* With the set, and without. */
        hold(pep440_compile_list(OF(&lists[0]), TO(&lists[1])) == PEP440_OK && pep440_compile(OF(&versions[0]), TO(&versions[1])) == PEP440_OK, line);
        lists[2] = lists[1];
        drop_set(&lists[2]);
        for (unsigned prereleases = 0; prereleases < 3; prereleases++) {
            said[prereleases] = (char)('0' + allows(&lists[0], &versions[0], prereleases));
            for (size_t other = 1; other < 6; other++)
                hold(allows(&lists[other / 2], &versions[other % 2], prereleases) == (unsigned)(said[prereleases] - '0'), line);
        }
        puts(wrong ? "differ" : said);
    }
    return wrong ? EXIT_FAILURE : EXIT_SUCCESS;
}

int main(int count, char **words)
{
    Bytes form;
    if (count > 1)
        return strcmp(words[1], "write") == 0 ? write_forms() : strcmp(words[1], "read") == 0 ? read_forms() : print_allowed();
    hold_literals();
    for (size_t number = 0; number < VERSIONS + LISTS; number++) {
        some_form(number, &form);
        hold_bytes(&form);
        change_each_byte(&form);
        if (form.bytes[0] == 6) {
            hold_set_of(&form);
            drop_set(&form);
            change_each_byte(&form);
        }
    }
    for (size_t turn = 0; turn < RANDOM; turn++) {
        some_bytes(&form);
        hold_bytes(&form);
    }
    hold(rejected > RANDOM && printed > VERSIONS + LISTS && without_set > LISTS && unwritten > 0 && strings > 0 && sets > 0, "each result is met");
    printf("%zu results: %zu rejected, %zu are what they are printed as, %zu lists are it without their set, %zu that no string denotes, %zu strings; %d wrong\n",
           rejected + printed + without_set + unwritten + strings, rejected, printed, without_set, unwritten, strings, wrong);
    return wrong ? EXIT_FAILURE : EXIT_SUCCESS;
}
