/* A digest of what random calls return and write, the same calls on each machine: each one's status, numbers and bytes.

   digest [COUNT]   of so many calls, 1,000,000 */
#include <stdio.h>
#include <stdlib.h>
#include <string.h>

#include "pep440.h"

enum { ROOM = 4096, ENDS = 256, MANY = 5, CALLS = 35 };

typedef struct {
    uint8_t bytes[ROOM];
    size_t length;
} Bytes;

#define OF(string) (string).bytes, (string).length
#define OUT out, sizeof out, &written
#define KEYS out, sizeof out, ends, ENDS, &written, &count

static Bytes version, other, list, change, invalid;
static uint8_t out[ROOM], flag, early, marks[MANY];
static size_t written, count, at, ends[ENDS];
static int8_t order;
static uint64_t word, release[64];
static pep440_parts parts;
static pep440_string batch[MANY];
static uint64_t state = 440, digest = 14695981039346656037u;

/* A number below the bound. */
static unsigned below(unsigned bound)
{
    state = state * 6364136223846793005u + 1442695040888963407u;
    return (unsigned)((state >> 33) % bound);
}

static void add(Bytes *string, const char *part)
{
    size_t length = strlen(part);
    memcpy(string->bytes + string->length, part, length);
    string->length += length;
}

static void add_any(Bytes *string, const char *const *parts, unsigned of) { add(string, parts[below(of)]); }

#define ADD(string, ...) add_any(string, (const char *const[]){__VA_ARGS__}, sizeof((const char *const[]){__VA_ARGS__}) / sizeof(char *))

static void add_number(Bytes *string) { ADD(string, "0", "1", "2", "10", "007", "2024", "65536", "2097152", "18446744073709551615"); }

/* A version as PEP 440 spells it or nearly so; one in 32 has a byte that is not its own. */
static void add_version(Bytes *string)
{
    size_t start = string->length;
    ADD(string, "", "", "", "v", " V", "1!", "0!");
    add_number(string);
    for (unsigned more = below(4); more > 0; more--)
        add(string, "."), add_number(string);
    ADD(string, "", "", "", "a1", ".alpha", "-BETA.2", "rc3", "_c4", "preview");
    ADD(string, "", "", "", ".post1", "-2", ".rev3", "post");
    ADD(string, "", "", "", ".dev1", "dev", "_DEV_2");
    ADD(string, "", "", "", "+a", "+ubuntu.1", "+1_2-3", "+");
    if (below(32) == 0) {
        size_t place = start + below((unsigned)(string->length - start));
        string->bytes[place] = (uint8_t)below(256);
    }
}

static void add_list(Bytes *string)
{
    for (unsigned more = below(4); more > 0; more--) {
        ADD(string, "==", "!=", "<=", ">=", "<", ">", "~=", "===", "==", "!=", ">=", "<", "=");
        ADD(string, "", " ");
        add_version(string);
        if (below(12) == 0)
            add(string, ".*");
        if (more > 1)
            add(string, ",");
    }
}

static void add_change(Bytes *string)
{
    ADD(string, "epoch=1", "release=1.2", "pre=rc1", "pre=", "post=", "post=7", "dev=3", "local=a.1", "min=0", "max=1", "only-release", "without-local", "x");
}

/* In one of three cases what the string is compiled to takes its place, if there is such a form. */
static void compile_some(Bytes *string, uint8_t (*compile)(const uint8_t *, size_t, uint8_t *, size_t, size_t *))
{
    if (below(3) || compile(OF(*string), OUT) != PEP440_OK)
        return;
    memcpy(string->bytes, out, written);
    string->length = written;
}

static void write_arguments(void)
{
    static Bytes strings[MANY];
    version.length = other.length = list.length = change.length = invalid.length = 0;
    add_version(&version), add_version(&other), add_list(&list), add_change(&change);
    ADD(&invalid, "1.0prev", ">=1.0,=2", "1.0.*a", "~=1", "", "1.0");
    compile_some(&version, pep440_compile), compile_some(&other, pep440_compile), compile_some(&list, pep440_compile_list);
    for (int item = 0; item < MANY; item++) {
        strings[item].length = 0;
        add_version(&strings[item]);
        batch[item] = (pep440_string){OF(strings[item])};
    }
}

static void mix(const void *bytes, size_t length)
{
    for (size_t place = 0; place < length; place++)
        digest = (digest ^ ((const uint8_t *)bytes)[place]) * 1099511628211u;
}

/* What each call may have written, which is zero before. */
static void mix_results(uint8_t status)
{
    uint8_t flags[] = {status, flag, early, (uint8_t)order};
    uint64_t numbers[] = {written, count, at, word, parts.epoch, parts.pre, parts.post, parts.dev, parts.release_length};
    uint8_t kinds[] = {parts.pre_kind, parts.has_post, parts.has_dev, parts.has_local};
    mix(flags, sizeof flags), mix(numbers, sizeof numbers), mix(kinds, sizeof kinds), mix(marks, sizeof marks);
    mix(out, written < ROOM ? written : ROOM);
    for (size_t place = 0; place < count && place < ENDS; place++)
        mix(&ends[place], sizeof ends[place]);
    for (size_t place = 0; place < parts.release_length && place < 64; place++)
        mix(&release[place], sizeof release[place]);
}

static void clear_results(void)
{
    memset(out, 0, sizeof out), memset(ends, 0, sizeof ends), memset(marks, 0, sizeof marks), memset(&parts, 0, sizeof parts);
    written = count = at = 0, flag = early = 0, order = 0, word = 0;
}

static uint8_t call(unsigned number)
{
    pep440_string changes[] = {{OF(change)}};
    /* (C says no order for two of these in one call) */
    uint8_t operator_number = (uint8_t)(1 + below(8)), star = (uint8_t)below(2), kind = (uint8_t)below(5), prereleases = (uint8_t)below(4);
    switch (number) {
    case 0: return pep440_normalize(OF(version), OUT);
    case 1: return pep440_normalize_list(OF(list), OUT);
    case 2: return pep440_specifiers_of(OF(list), KEYS);
    case 3: return pep440_specifier((const uint8_t *)">=", 2, OF(version), OUT);
    case 4: return pep440_pattern(OF(version), OUT, &flag);
    case 5: return pep440_edit(OF(version), changes, 1, OUT);
    case 6: return pep440_edit_error(OF(version), changes, 1, OUT);
    case 7: return pep440_error(kind, OF(invalid), OUT);
    case 8: return pep440_compare(OF(version), OF(other), &order);
    case 9: return pep440_contains(OF(list), OF(version), &flag, &early);
    case 10: return pep440_allows(OF(list), OF(version), prereleases, &flag);
    case 11: return pep440_any_prerelease(OF(list), &flag);
    case 12: return pep440_version_in(OF(list), OUT);
    case 13: return pep440_parts_of(OF(version), &parts, release, 64);
    case 14: return pep440_sort_key(OF(version), OUT);
    case 15: return pep440_word(OF(version), &word);
    case 16: return pep440_ranges(OF(list), OUT);
    case 17: return pep440_boundaries(OF(list), KEYS);
    case 18: return pep440_range_bounds(OF(list), KEYS);
    case 19: return pep440_release_range_bounds(OF(list), KEYS);
    case 20: return pep440_compile(OF(version), OUT);
    case 21: return pep440_compile_list(OF(list), OUT);
    case 22: return pep440_compile_specifier(OF(list), OUT);
    case 23: return pep440_build_error(operator_number, OF(version), star, OUT);
    case 24: return pep440_filter(OF(list), batch, MANY, marks, MANY);
    case 25: return pep440_newest(OF(list), batch, MANY, &at);
    case 26: count = MANY; return pep440_sort(batch, MANY, ends, MANY, &at);
    case 27: count = MANY; return pep440_sort_keys(batch, MANY, out, sizeof out, ends, ENDS, &written, &at);
    case 28: return pep440_complement(OF(list), OUT);
    case 29: return pep440_intersection(OF(list), OF(invalid), OUT);
    case 30: return pep440_union(OF(list), OF(invalid), OUT);
    case 31: return pep440_is_subset(OF(list), OF(invalid), &flag);
    case 32: count = MANY; return pep440_compile_all(batch, MANY, out, sizeof out, ends, ENDS, &written, &at);
    case 33: return pep440_requests_prereleases(OF(list), &flag);
    default: count = 1, ends[0] = pep440_version_of_library(); return PEP440_OK;
    }
}

int main(int words, char **values)
{
    unsigned long calls = words > 1 ? strtoul(values[1], NULL, 10) : 1000000, by_status[16] = {0};
    for (unsigned long number = 0; number < calls; number++) {
        if (number % CALLS == 0)
            write_arguments();
        clear_results();
        uint8_t status = call(number % CALLS);
        by_status[status & 15]++;
        mix_results(status);
    }
    printf("%lu calls", calls);
    for (int status = 0; status < 16; status++)
        if (by_status[status])
            printf(", %lu return %d", by_status[status], status);
    printf("; digest %016llx\n", (unsigned long long)digest);
    return 0;
}
