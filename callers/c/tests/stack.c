/* How much stack a call takes: each runs in a thread whose stack was filled with one byte before, and the deepest byte that changed counts.
   Strings are short, long, hostile to a reader, and very many; each call takes them, their compiled forms, and one beside the other. The
   header's bound must hold of all. */
#define _GNU_SOURCE
#include <pthread.h>
#include <stdio.h>
#include <stdlib.h>
#include <string.h>
#include <sys/mman.h>

#include "pep440.h"

enum { BOUND = 16 * 1024, STACK = 1 << 20, LONG = 1 << 16, MANY = 100000, FILL = 0xA5 };

/* A version, one to its right, and a list, as a string or as its compiled form; no bytes where there is none. */
static pep440_string given, right, list;
/* Very many versions, and changes. */
static pep440_string *batch, *strings, *forms;
static uint8_t *out;
static size_t *indices, *ends, written, at;
static uint64_t *release, packed;
static pep440_parts parts;
static uint8_t flag, early;
static int8_t order;

#define GIVEN given.bytes, given.length
#define RIGHT right.bytes, right.length
#define LIST list.bytes, list.length
/* (each string is asked of each specifier) */
#define FEW_OR_MANY (list.length > 4096 ? 100 : MANY)
#define OUT out, (size_t)LONG * 4, &written

static void *normalize(void *unused) { pep440_normalize(GIVEN, OUT); return unused; }
static void *normalize_list(void *unused) { pep440_normalize_list(LIST, OUT); return unused; }
static void *version_error(void *unused) { pep440_version_error(GIVEN, OUT); return unused; }
static void *list_error(void *unused) { pep440_list_error(LIST, OUT); return unused; }
static void *compare(void *unused) { pep440_compare(GIVEN, RIGHT, &order); return unused; }
static void *contains(void *unused) { pep440_contains(LIST, GIVEN, &flag, &early); return unused; }
static void *allows(void *unused) { pep440_allows(LIST, GIVEN, PEP440_ASKED_PRERELEASES, &flag); return unused; }
static void *any_prerelease(void *unused) { pep440_any_prerelease(LIST, &flag); return unused; }
static void *requests_prereleases(void *unused) { pep440_requests_prereleases(LIST, &flag); return unused; }
static void *parts_of(void *unused) { pep440_parts_of(GIVEN, &parts, release, LONG); return unused; }
static void *sort_key(void *unused) { pep440_sort_key(GIVEN, OUT); return unused; }
static void *word(void *unused) { pep440_word(GIVEN, &packed); return unused; }
static void *version_in(void *unused) { pep440_version_in(LIST, OUT); return unused; }
static void *ranges(void *unused) { pep440_ranges(LIST, OUT); return unused; }
static void *specifiers_of(void *unused)
{
    pep440_specifiers_of(LIST, out, (size_t)LONG * 64, ends, MANY, &written, &at);
    return unused;
}
static void *specifier(void *unused) { pep440_specifier((const uint8_t *)"==", 2, GIVEN, OUT); return unused; }
static void *pattern(void *unused) { pep440_pattern(GIVEN, OUT, &flag); return unused; }
static void *edit(void *unused) { pep440_edit(GIVEN, strings, 1, OUT); return unused; }
static void *edit_release(void *unused)
{
    static const pep440_string local = {(const uint8_t *)"local=ubuntu.1", 14}, release_only = {(const uint8_t *)"only-release", 12};
    pep440_edit(GIVEN, &local, 1, OUT);
    pep440_edit(GIVEN, &release_only, 1, OUT);
    return unused;
}
static void *edit_error(void *unused) { pep440_edit_error(GIVEN, strings, MANY, OUT); return unused; }
static void *pattern_error(void *unused) { pep440_pattern_error(GIVEN, OUT); return unused; }
static void *specifier_error(void *unused) { pep440_specifier_error(LIST, OUT); return unused; }
static void *range_bounds(void *unused)
{
    pep440_range_bounds(LIST, out, (size_t)LONG * 64, ends, MANY, &written, &at);
    return unused;
}
static void *release_range_bounds(void *unused)
{
    pep440_release_range_bounds(LIST, out, (size_t)LONG * 64, ends, MANY, &written, &at);
    return unused;
}
static void *boundaries(void *unused)
{
    pep440_boundaries(LIST, out, (size_t)LONG * 64, ends, MANY, &written, &at);
    return unused;
}
static void *complement(void *unused) { pep440_complement(LIST, OUT); return unused; }
static void *intersection(void *unused) { pep440_intersection(LIST, LIST, OUT); return unused; }
static void *unite(void *unused) { pep440_union(LIST, LIST, OUT); return unused; }
static void *is_subset(void *unused) { pep440_is_subset(LIST, LIST, &flag); return unused; }
static void *compile(void *unused) { pep440_compile(GIVEN, OUT); return unused; }
static void *compile_specifier(void *unused) { pep440_compile_specifier(LIST, OUT); return unused; }
static void *compile_list(void *unused) { pep440_compile_list(LIST, OUT); return unused; }
static void *build_error(void *unused) { pep440_build_error(PEP440_LESS, GIVEN, 0, OUT); return unused; }
static void *newest(void *unused) { pep440_newest(LIST, batch, FEW_OR_MANY, &at); return unused; }
static void *filter(void *unused) { pep440_filter(LIST, batch, FEW_OR_MANY, out, MANY); return unused; }
static void *sort(void *unused) { pep440_sort(batch, MANY, indices, MANY, &at); return unused; }
static void *sort_keys(void *unused)
{
    pep440_sort_keys(batch, MANY, out, (size_t)LONG * 64, ends, MANY, &written, &at);
    return unused;
}

static void *compile_all(void *unused)
{
    pep440_compile_all(batch, MANY, out, (size_t)LONG * 64, ends, MANY, &written, &at);
    return unused;
}

static const struct {
    const char *name;
    void *(*call)(void *);
} CALLS[] = {{"normalize", normalize},
             {"normalize_list", normalize_list},
             {"version_error", version_error},
             {"list_error", list_error},
             {"compare", compare},
             {"contains", contains},
             {"allows", allows},
             {"any_prerelease", any_prerelease},
             {"requests_prereleases", requests_prereleases},
             {"parts_of", parts_of},
             {"sort_key", sort_key},
             {"word", word},
             {"version_in", version_in}, {"ranges", ranges},
             {"pattern_error", pattern_error},
             {"specifier_error", specifier_error},
             {"range_bounds", range_bounds},
             {"release_range_bounds", release_range_bounds},
             {"boundaries", boundaries},
             {"complement", complement},
             {"intersection", intersection},
             {"union", unite},
             {"is_subset", is_subset},
             {"specifiers_of", specifiers_of},
             {"specifier", specifier},
             {"pattern", pattern},
             {"edit", edit},
             {"edit, made", edit_release},
             {"edit_error", edit_error},
             {"compile", compile},
             {"compile_specifier", compile_specifier},
             {"compile_list", compile_list},
             {"build_error", build_error},
             {"filter", filter},
             {"newest", newest},
             {"sort", sort},
             {"sort_keys", sort_keys},
             {"compile_all", compile_all}};

static uint8_t *stack;
static void *(*call)(void *);
static size_t taken;

/* Makes the call, and counts from here down to the deepest byte that changed. */
static void *measure(void *unused)
{
    const uint8_t *deepest = stack;
    void *made = call(unused);
    while (*deepest == FILL)
        deepest++;
    taken = (size_t)((const uint8_t *)__builtin_frame_address(0) - deepest);
    return made;
}

/* The bytes of stack that the call takes in a thread. */
static size_t stack_of(void *(*of_call)(void *))
{
    pthread_t thread;
    pthread_attr_t attributes;
    call = of_call;
    stack = mmap(NULL, STACK, PROT_READ | PROT_WRITE, MAP_PRIVATE | MAP_ANONYMOUS, -1, 0);
    if (stack == MAP_FAILED)
        exit(EXIT_FAILURE);
    memset(stack, FILL, STACK);
    pthread_attr_init(&attributes);
    if (pthread_attr_setstack(&attributes, stack, STACK) || pthread_create(&thread, &attributes, measure, NULL) || pthread_join(thread, NULL))
        exit(EXIT_FAILURE);
    pthread_attr_destroy(&attributes);
    munmap(stack, STACK);
    return taken;
}

/* A string of this length: the piece over and over, behind a start. */
static pep440_string repeated(const char *start, const char *piece, size_t length)
{
    size_t used = strlen(start), width = strlen(piece);
    uint8_t *bytes = malloc(length + used + width);
    memcpy(bytes, start, used);
    for (; used + width <= length; used += width)
        memcpy(bytes + used, piece, width);
    return (pep440_string){bytes, used};
}

static pep440_string of(const char *text) { return repeated(text, "", 0); }

/* The compiled form of a version, or of a list. */
static pep440_string compiled_of(uint8_t (*compiles)(const uint8_t *, size_t, uint8_t *, size_t, size_t *), pep440_string text)
{
    uint8_t *bytes;
    size_t length = 0;
    compiles(text.bytes, text.length, out, (size_t)LONG * 64, &length);
    bytes = malloc(length + 1);
    memcpy(bytes, out, length);
    return (pep440_string){bytes, length};
}

static void make_strings(void)
{
    strings = calloc(MANY, sizeof *strings);
    forms = calloc(MANY, sizeof *forms);
    for (size_t index = 0; index < MANY; index++) {
        char text[64];
        size_t number = index * 7919 % 1000003;
        snprintf(text, sizeof text, "%zu.%zu.%zu.0.%zu%s", number % 5, number / 5 % 40, number / 200 % 30, number % 3,
                 index % 4 ? "" : "rc1+a.7");
        strings[index] = of(text);
        forms[index] = compiled_of(pep440_compile, strings[index]);
    }
}

int main(void)
{
    const pep440_string versions[] = {of("1.0"), of("1!2.3.4.5.6rc7.post8.dev9+a.10.b"), repeated("1", ".1", LONG), repeated("1+a", ".b", LONG),
                                      repeated("1", "0", LONG), repeated("", " ", LONG), of("1.0prev"), of("x")};
    const pep440_string lists[] = {of(">=1.0"), of(">=1!2.3.4.5.6rc7.post8.dev9, !=1.5.*, ~=1!2.0"), repeated(">=1", ",>=1", LONG),
                                   repeated(">=1", ",!=1.*", LONG), repeated("===1", ".1", LONG), repeated(">=1", ",x", LONG),
                                   of("==18446744073709551615.*")};
    /* The string, and its compiled form. */
    pep440_string of_version[2][sizeof versions / sizeof *versions], of_list[2][sizeof lists / sizeof *lists];
    size_t most = 0;
    out = malloc((size_t)LONG * 64);
    release = calloc(LONG, sizeof *release);
    indices = calloc(MANY, sizeof *indices);
    ends = calloc(MANY, sizeof *ends);
    make_strings();
    for (size_t v = 0; v < sizeof versions / sizeof *versions; v++) {
        of_version[0][v] = versions[v];
        of_version[1][v] = compiled_of(pep440_compile, versions[v]);
    }
    for (size_t l = 0; l < sizeof lists / sizeof *lists; l++) {
        of_list[0][l] = lists[l];
        of_list[1][l] = compiled_of(pep440_compile_list, lists[l]);
    }
    for (size_t turn = 0; turn < sizeof CALLS / sizeof *CALLS; turn++) {
        size_t of_call = 0;
        int is_batch = turn + 3 >= sizeof CALLS / sizeof *CALLS;
        for (size_t v = 0; v < sizeof versions / sizeof *versions; v++)
            for (size_t l = 0; l < sizeof lists / sizeof *lists; l++)
                for (int kinds = 0; kinds < 4 && !(is_batch && (v > 0 || l > 1)); kinds++) {
                    size_t bytes;
                    given = of_version[kinds % 2][v];
                    right = of_version[kinds / 2][v];
                    list = of_list[kinds / 2][l];
                    batch = kinds % 2 ? forms : strings;
                    bytes = stack_of(CALLS[turn].call);
                    of_call = bytes > of_call ? bytes : of_call;
                }
        printf("%-24s %6zu bytes of stack\n", CALLS[turn].name, of_call);
        most = of_call > most ? of_call : most;
    }
    printf("%zu bytes of stack at most, of %d\n", most, BOUND);
    return most > BOUND ? EXIT_FAILURE : EXIT_SUCCESS;
}
