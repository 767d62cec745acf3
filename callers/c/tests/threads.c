/* Each call in several threads at once, which read the same strings and compiled forms: each must find what one thread finds. Under a detector of
   races it shows that calls share nothing. */
#include <pthread.h>
#include <stdio.h>
#include <stdlib.h>
#include <string.h>

#include "pep440.h"

enum { THREADS = 8, TURNS = 4, ROOM = 4096, KINDS = 2, VERSIONS = 5, LISTS = 4 };

static const char *const TEXTS[VERSIONS] = {"1.0", "1!2.3.4.5.6rc7.post8.dev9+a.10.b", "1.10.dev2", "latest", "2024.10.20240101"};
static const char *const LIST_TEXTS[LISTS] = {">=1.0", ">=1!2.0, !=1.5.*, ===1.17+a, <2.0", ">=1.0; <2", "==18446744073709551615.*"};

/* Both kinds of each, which all threads read. */
static pep440_string versions[KINDS][VERSIONS], lists[KINDS][LISTS];
static const pep440_string CHANGES[] = {{(const uint8_t *)"post=2", 6}, {(const uint8_t *)"dev=", 4}};

/* What a thread writes to, and a digest of all that it found. */
typedef struct {
    uint8_t out[ROOM];
    size_t ends[16], written, count;
    uint64_t release[16], word, digest;
    pep440_parts parts;
    uint8_t flag, early;
    int8_t order;
} Memory;

static void fold(Memory *memory, uint8_t status)
{
    const uint8_t *bytes = (const uint8_t *)memory;
    uint64_t digest = memory->digest ^ status;
    memory->digest = 0;
    for (size_t at = 0; at < sizeof *memory; at++)
        digest = (digest ^ bytes[at]) * 1099511628211u;
    memset(memory, 0, sizeof *memory);
    memory->digest = digest;
}

#define OF(string) (string).bytes, (string).length
#define OUT m->out, ROOM, &m->written
#define KEYS m->out, ROOM, m->ends, 16, &m->written, &m->count

/* Without the bytes at the end of the parts, which no field has. */
static uint8_t take_parts(Memory *m, pep440_string version)
{
    uint8_t status = pep440_parts_of(OF(version), &m->parts, m->release, 16);
    memset(&m->parts.has_local + 1, 0, sizeof m->parts - offsetof(pep440_parts, has_local) - 1);
    return status;
}

static void of_version(Memory *m, pep440_string version)
{
    fold(m, pep440_normalize(OF(version), OUT));
    fold(m, pep440_version_error(OF(version), OUT));
    fold(m, pep440_pattern(OF(version), OUT, &m->flag));
    fold(m, pep440_pattern_error(OF(version), OUT));
    fold(m, take_parts(m, version));
    fold(m, pep440_sort_key(OF(version), OUT));
    fold(m, pep440_word(OF(version), &m->word));
    fold(m, pep440_compile(OF(version), OUT));
    fold(m, pep440_specifier((const uint8_t *)"===", 3, OF(version), OUT));
    fold(m, pep440_build_error(PEP440_LESS, OF(version), 0, OUT));
    fold(m, pep440_edit(OF(version), CHANGES, 2, OUT));
    fold(m, pep440_edit_error(OF(version), CHANGES, 2, OUT));
}

static void of_list(Memory *m, pep440_string list)
{
    fold(m, pep440_normalize_list(OF(list), OUT));
    fold(m, pep440_list_error(OF(list), OUT));
    fold(m, pep440_any_prerelease(OF(list), &m->flag));
    fold(m, pep440_requests_prereleases(OF(list), &m->flag));
    fold(m, pep440_specifiers_of(OF(list), KEYS));
    fold(m, pep440_specifier_error(OF(list), OUT));
    fold(m, pep440_compile_list(OF(list), OUT));
    fold(m, pep440_compile_specifier(OF(list), OUT));
    fold(m, pep440_ranges(OF(list), OUT));
    fold(m, pep440_version_in(OF(list), OUT));
    fold(m, pep440_boundaries(OF(list), KEYS));
    fold(m, pep440_complement(OF(list), OUT));
    fold(m, pep440_intersection(OF(list), OF(list), OUT));
    fold(m, pep440_union(OF(list), OF(list), OUT));
    fold(m, pep440_is_subset(OF(list), OF(list), &m->flag));
    fold(m, pep440_range_bounds(OF(list), KEYS));
    fold(m, pep440_release_range_bounds(OF(list), KEYS));
}

static void *call_all(void *memory)
{
    Memory *m = memory;
    for (int turn = 0; turn < TURNS * KINDS * KINDS; turn++) {
        const pep440_string *some = versions[turn % KINDS], *others = versions[turn / KINDS % KINDS], *several = lists[turn / KINDS % KINDS];
        for (size_t v = 0; v < VERSIONS; v++) {
            of_version(m, some[v]);
            for (size_t other = 0; other < VERSIONS; other++)
                fold(m, pep440_compare(OF(some[v]), OF(others[other]), &m->order));
            for (size_t l = 0; l < LISTS; l++) {
                fold(m, pep440_contains(OF(several[l]), OF(some[v]), &m->flag, &m->early));
                fold(m, pep440_allows(OF(several[l]), OF(some[v]), (uint8_t)(l % 3), &m->flag));
            }
        }
        for (size_t l = 0; l < LISTS; l++) {
            of_list(m, several[l]);
            fold(m, pep440_filter(OF(several[l]), some, VERSIONS, m->out, ROOM));
            fold(m, pep440_newest(OF(several[l]), some, VERSIONS, &m->count));
        }
        fold(m, pep440_sort(some, 3, m->ends, 16, &m->count));
        fold(m, pep440_sort(some, VERSIONS, m->ends, 16, &m->count));
        fold(m, pep440_sort_keys(some, 3, KEYS));
        fold(m, pep440_compile_all(some, 3, KEYS));
        fold(m, (uint8_t)pep440_version_of_library());
    }
    return NULL;
}

int main(void)
{
    static Memory alone, memories[THREADS];
    static uint8_t bytes[VERSIONS + LISTS][ROOM];
    pthread_t threads[THREADS];
    int wrong = 0;
    for (size_t at = 0; at < VERSIONS; at++) {
        versions[0][at] = versions[1][at] = pep440_string_of(TEXTS[at]);
        if (pep440_compile_string(TEXTS[at], bytes[at], ROOM, &versions[1][at].length) == PEP440_OK)
            versions[1][at].bytes = bytes[at];
    }
    for (size_t at = 0; at < LISTS; at++) {
        lists[0][at] = lists[1][at] = pep440_string_of(LIST_TEXTS[at]);
        if (pep440_compile_list_string(LIST_TEXTS[at], bytes[VERSIONS + at], ROOM, &lists[1][at].length) == PEP440_OK)
            lists[1][at].bytes = bytes[VERSIONS + at];
    }
    call_all(&alone);
    for (size_t at = 0; at < THREADS; at++)
        if (pthread_create(&threads[at], NULL, call_all, &memories[at]))
            return EXIT_FAILURE;
    for (size_t at = 0; at < THREADS; at++) {
        pthread_join(threads[at], NULL);
        wrong += memcmp(&memories[at], &alone, sizeof alone) != 0;
    }
    printf("%d threads at once, %d found something else than one does\n", THREADS, wrong);
    return wrong ? EXIT_FAILURE : EXIT_SUCCESS;
}
