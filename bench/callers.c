/* Calls of the C interface, many times over: callers TURNS, of lines `COUNT|CALL|ARGUMENT|..`. An argument after `compiled:` is compiled first, as a
   version or as a list. A batch is one call with COUNT texts, scrambled, of the shape that its last argument names. Prints for each line how many
   nanoseconds its calls took in all, the least of the turns; where ALLOCATIONS is defined, how often they allocated. Each is held to its status. */
#include <stdio.h>
#include <stdlib.h>
#include <string.h>
#include <time.h>

#include "pep440.h"

/* The arguments. */
typedef struct {
    const uint8_t *bytes;
    size_t length;
} Input;

static Input left, right;
#define LEFT left.bytes, left.length
#define RIGHT right.bytes, right.length

static uint8_t out[4096];
#define OUT out, sizeof out, &written
static size_t written, ends[64], keys;
static int8_t order;
static uint8_t is, early;
static pep440_parts parts;
static uint64_t release[32];
static pep440_string change;

static uint8_t normalize(void) { return pep440_normalize(LEFT, OUT); }
static uint8_t normalize_list(void) { return pep440_normalize_list(LEFT, OUT); }
static uint8_t version_error(void) { return pep440_version_error(LEFT, OUT); }
static uint8_t compare(void) { return pep440_compare(LEFT, RIGHT, &order); }
static uint8_t contains(void) { return pep440_contains(LEFT, RIGHT, &is, &early); }
static uint8_t allows(void) { return pep440_allows(LEFT, RIGHT, PEP440_ASKED_PRERELEASES, &is); }
static uint8_t any_prerelease(void) { return pep440_any_prerelease(LEFT, &is); }
static uint8_t parts_of(void) { return pep440_parts_of(LEFT, &parts, release, 32); }
static uint8_t sort_key(void) { return pep440_sort_key(LEFT, OUT); }
static uint8_t ranges(void) { return pep440_ranges(LEFT, OUT); }
static uint8_t boundaries(void) { return pep440_boundaries(LEFT, out, sizeof out, ends, 64, &written, &keys); }
static uint8_t edit(void) { return pep440_edit(LEFT, &change, 1, OUT); }
static uint8_t compile(void) { return pep440_compile(LEFT, OUT); }
static uint8_t compile_list(void) { return pep440_compile_list(LEFT, OUT); }
static uint8_t complement(void) { return pep440_complement(LEFT, OUT); }
static uint8_t intersection(void) { return pep440_intersection(LEFT, RIGHT, OUT); }
static uint8_t union_of(void) { return pep440_union(LEFT, RIGHT, OUT); }
static uint8_t is_subset(void) { return pep440_is_subset(LEFT, RIGHT, &is); }

typedef struct {
    const char *name;
    uint8_t (*call)(void);
} Call;

static const Call CALLS[] = {
    {"normalize", normalize}, {"normalize_list", normalize_list}, {"version_error", version_error}, {"compare", compare}, {"contains", contains},
    {"allows", allows}, {"any_prerelease", any_prerelease}, {"parts_of", parts_of}, {"sort_key", sort_key}, {"ranges", ranges}, {"boundaries", boundaries},
    {"edit", edit}, {"compile", compile}, {"compile_list", compile_list}, {"complement", complement}, {"intersection", intersection}, {"union", union_of},
    {"is_subset", is_subset}};

/* The shapes of a batch's texts, with three numbers; of `mixed`, one in eight each has a pre-release, a post-release and a developmental part. */
static const struct {
    const char *name, *format;
} SHAPES[] = {{"packed", "%zu.%zu.%zu"}, {"date", "%1$zu.%2$zu.202401%3$02zu"}, {"local", "%zu.%zu.%zu+cu118"}, {"locals", "%zu.%zu.%zu+cu118.20240101.abc"},
              {"epoch", "1!%zu.%zu.%zu"}, {"suffixed", "%zu.%zurc%zu.post2.dev3"}, {"five", "%zu.%zu.%zu.4.5"}, {"spelled", "v%zu.%zu-alpha.%zu"},
              {"digits", "1000000000000000000%zu.%zu.%zu"}};
static const char *const SUFFIXES[] = {"", "rc%zu", ".post%zu", ".dev%zu", "", "", "", ""};

static void write_text(char *text, const char *shape, size_t number)
{
    int length = 0;
    for (size_t which = 0; which < sizeof SHAPES / sizeof *SHAPES; which++)
        if (strcmp(SHAPES[which].name, strcmp(shape, "mixed") == 0 ? "packed" : shape) == 0)
            length = sprintf(text, SHAPES[which].format, number % 5, number / 5 % 40, number / 200 % 30);
    if (length == 0)
        exit(EXIT_FAILURE);
    if (strcmp(shape, "mixed") == 0)
        sprintf(text + length, SUFFIXES[number % 8], number % 4);
}

static const char COMPILED[] = "compiled:";

/* The text behind `compiled:`, or null. */
static const char *to_compile(const char *text)
{
    return strncmp(text, COMPILED, sizeof COMPILED - 1) == 0 ? text + sizeof COMPILED - 1 : NULL;
}

static pep440_string *batch;
static size_t *places, *text_ends, count, at;
static uint8_t *texts, *room;
#define EACH 96

/* Each in the place of its text. */
static uint8_t compile_batch(void)
{
    for (size_t place = 0; place < count; place++) {
        uint8_t *bytes = texts + place * EACH;
        if (pep440_compile(batch[place].bytes, batch[place].length, OUT) != PEP440_OK)
            return PEP440_INVALID_VERSION;
        memcpy(bytes, out, written);
        batch[place] = (pep440_string){bytes, written};
    }
    return PEP440_OK;
}

static void *grown(void *block, size_t each)
{
    void *made = realloc(block, (count + 1) * each);
    if (!made)
        exit(EXIT_FAILURE);
    return made;
}

/* Texts of the shape, or compiled versions of them. */
static void make_batch(const char *shape)
{
    const char *compiled = to_compile(shape);
    batch = grown(batch, sizeof *batch), places = grown(places, sizeof *places), text_ends = grown(text_ends, sizeof *text_ends);
    texts = grown(texts, EACH), room = grown(room, EACH);
    for (size_t place = 0; place < count; place++) {
        char *text = (char *)texts + place * EACH;
        write_text(text, compiled ? compiled : shape, place * 7919 % 1000003);
        batch[place] = pep440_string_of(text);
    }
    if (compiled && compile_batch() != PEP440_OK)
        exit(EXIT_FAILURE);
}

/* No sort key is a prefix of another one, so compiled versions have the order of their bytes. */
static int compare_forms(const void *one, const void *other)
{
    const pep440_string *first = one, *second = other;
    return memcmp(first->bytes, second->bytes, first->length < second->length ? first->length : second->length);
}

static uint8_t filter(void) { return pep440_filter(LEFT, batch, count, room, count); }
static uint8_t newest(void) { return pep440_newest(LEFT, batch, count, &at); }
static uint8_t sort(void) { return pep440_sort(batch, count, places, count, &at); }
static uint8_t sort_keys(void) { return pep440_sort_keys(batch, count, room, count * EACH, text_ends, count, &written, &at); }

static uint8_t compile_all(void) { return pep440_compile_all(batch, count, room, count * EACH, text_ends, count, &written, &at); }

static uint8_t sort_bytes(void)
{
    qsort(batch, count, sizeof *batch, compare_forms);
    return PEP440_OK;
}

static uint8_t compile_and_sort(void) { return compile_batch() || sort_bytes(); }

static const Call BATCHES[] = {{"filter", filter}, {"newest", newest}, {"sort", sort}, {"sort_keys", sort_keys}, {"compile_all", compile_all}, {"sort_bytes", sort_bytes}, {"compile_and_sort", compile_and_sort}};

static uint8_t (*find(const Call *calls, size_t how_many, const char *name))(void)
{
    for (size_t which = 0; which < how_many; which++)
        if (strcmp(calls[which].name, name) == 0)
            return calls[which].call;
    return NULL;
}

static Input read_argument(const char *argument)
{
    const char *text = to_compile(argument);
    if (!text)
        return (Input){(const uint8_t *)argument, strlen(argument)};
    uint8_t *bytes = malloc(1024);
    size_t length;
    uint8_t status = (strpbrk(text, "<>=") ? pep440_compile_list_string : pep440_compile_string)(text, bytes, 1024, &length);
    if (status != PEP440_OK)
        exit(EXIT_FAILURE);
    return (Input){bytes, length};
}

static size_t allocations;
#ifdef ALLOCATIONS
void *__real_malloc(size_t size);
void *__real_realloc(void *block, size_t size);
void *__wrap_malloc(size_t size) { return allocations++, __real_malloc(size); }
void *__wrap_realloc(void *block, size_t size) { return allocations++, __real_realloc(block, size); }
#endif

/* What is counted. */
static __attribute__((noinline)) void repeat_call(uint8_t (*call)(void), size_t turns)
{
    for (size_t turn = 0; turn < turns; turn++)
        if (call() != PEP440_OK)
            exit(EXIT_FAILURE);
}

static size_t nanoseconds(uint8_t (*call)(void), size_t turns)
{
    struct timespec start, end;
    clock_gettime(CLOCK_MONOTONIC, &start);
    repeat_call(call, turns);
    clock_gettime(CLOCK_MONOTONIC, &end);
    return (size_t)(end.tv_sec - start.tv_sec) * 1000000000 + (size_t)end.tv_nsec - (size_t)start.tv_nsec;
}

/* Runs a line as often, and prints the least. */
static void run(char *line, size_t turns)
{
    char *words[4] = {0};
    for (size_t which = 0; which < 4 && line; which++)
        words[which] = strsep(&line, "|");
    count = strtoul(words[0], NULL, 10);
    uint8_t (*call)(void) = find(CALLS, sizeof CALLS / sizeof *CALLS, words[1]), (*of_batch)(void) = find(BATCHES, sizeof BATCHES / sizeof *BATCHES, words[1]);
    if (!words[2] || !(call || of_batch))
        exit(EXIT_FAILURE);
    if (call || words[3])
        left = read_argument(words[2]);
    if (call)
        right = words[3] ? read_argument(words[3]) : left, change = (pep440_string){RIGHT};
    size_t least = SIZE_MAX;
    while (turns-- > 0) {
        if (of_batch)
            make_batch(words[3] ? words[3] : words[2]);
        allocations = 0;
        size_t time = call ? nanoseconds(call, count) : nanoseconds(of_batch, 1);
        least = time < least ? time : least;
    }
#ifdef ALLOCATIONS
    least = allocations;
#endif
    printf("%zu\n", least);
}

int main(int argc, char **argv)
{
    char *line = NULL;
    size_t size = 0;
    while (argc > 1 && getline(&line, &size, stdin) > 0) {
        line[strcspn(line, "\n")] = 0;
        run(line, strtoul(argv[1], NULL, 10));
    }
    return EXIT_SUCCESS;
}
