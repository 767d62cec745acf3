/* The library as a module of WebAssembly: its heap, and its calls with addresses and lengths of 32 bits.

   A call keeps nothing, so `begin` gives back all that the call before took. It also reserves the bytes that the host
   writes strings to and reads answers from. */
#include "pep440.h"

#define EXPORT(name) __attribute__((export_name(#name))) uint32_t name
#define AT(address) ((void *)(size_t)(address))

/* ---- the heap: blocks lie one behind the other, each after a header */

enum { ALIGNMENT = 16, PAGE = 65536, GROWTH = 16 };

typedef struct {
    size_t succeeded;
    void *block;
} tried;

extern uint8_t __heap_base;
static size_t top;                /* where the next block begins */
static uint32_t until_failure;    /* allocations up to the one that fails; 0: none does */

static size_t aligned(size_t at) { return (at + ALIGNMENT - 1) & ~(size_t)(ALIGNMENT - 1); }

/* Whether memory reaches to the address, after it has grown if it must. Memory has at most MOST_BYTES, by the linker. */
static int reaches(size_t end)
{
    size_t have = (size_t)__builtin_wasm_memory_size(0) * PAGE, pages;
    if (end <= have)
        return 1;
    if (end > MOST_BYTES)
        return 0;
    pages = (end - have + PAGE - 1) / PAGE;
    /* the step from 64 to 32 bits makes of a failed growth's -1 the greatest number of 32 bits */
    return (uint32_t)__builtin_wasm_memory_grow(0, pages > GROWTH ? pages : GROWTH) != UINT32_MAX ||
           (uint32_t)__builtin_wasm_memory_grow(0, pages) != UINT32_MAX;
}

static size_t *end_of(void *block) { return (size_t *)((uint8_t *)block - ALIGNMENT); }

static tried placed(size_t at, size_t length)
{
    static uint8_t nothing;
    tried failed = {0, &nothing}, made = {1, AT(at)};
    if (until_failure && --until_failure == 0)
        return failed;
    if (length > MOST_BYTES || !reaches(aligned(at + length)))
        return failed;
    top = aligned(at + length);
    *end_of(made.block) = top;
    return made;
}

tried rattle_alloc(size_t length, size_t alignment)
{
    return placed(top + ALIGNMENT, length ? length : alignment);
}

static int is_last(void *block) { return *end_of(block) == top; }

/* The last block grows and shrinks where it lies. */
tried rattle_realloc(void *block, size_t kept, size_t length, size_t alignment)
{
    tried made = placed(is_last(block) ? (size_t)block : top + ALIGNMENT, length ? length : alignment);
    if (made.succeeded && made.block != block)
        memcpy(made.block, block, kept < length ? kept : length);
    return made;
}

void rattle_dealloc(void *block)
{
    if (is_last(block))
        top = (size_t)end_of(block);
}

/* ---- what the compiler expects of C: most copies are of a few bytes */

void *memcpy(void *to, const void *from, size_t length)
{
    uint8_t *out = to;
    const uint8_t *in = from;
    for (; length >= 8; length -= 8, in += 8, out += 8)
        __builtin_memcpy(out, in, 8);
    while (length--)
        *out++ = *in++;
    return to;
}

void *memmove(void *to, const void *from, size_t length)
{
    uint8_t *out = to;
    const uint8_t *in = from;
    if (out <= in || out >= in + length)
        return memcpy(to, from, length);
    while (length--)
        out[length] = in[length];
    return to;
}

void *memset(void *to, int byte, size_t length)
{
    uint8_t *out = to;
    while (length--)
        *out++ = (uint8_t)byte;
    return to;
}

/* ---- calls of the host */

/* Gives back all blocks, and returns where `length` bytes for the host begin, or 0 if there is no memory for them. */
EXPORT(begin)(uint32_t length)
{
    size_t from = aligned((size_t)&__heap_base);
    if (!reaches(aligned(from + length)))
        return 0;
    top = aligned(from + length);
    return (uint32_t)from;
}

/* The allocation that many from now fails, for tests; 0: none does. */
EXPORT(fail_allocation)(uint32_t count)
{
    until_failure = count;
    return 0;
}

/* How many bytes the blocks that were not given back take, with those of the host. */
EXPORT(bytes_taken)(void) { return (uint32_t)(top - aligned((size_t)&__heap_base)); }

/* ---- calls of the library */

#define WRITES(name)                                                                               \
    EXPORT(name)(uint32_t at, uint32_t length, uint32_t out, uint32_t size, uint32_t written)     \
    {                                                                                              \
        return pep440_##name(AT(at), length, AT(out), size, AT(written));                          \
    }

WRITES(normalize)
WRITES(normalize_list)
WRITES(version_in)
WRITES(sort_key)
WRITES(compile)
WRITES(compile_list)

#define WRITES_PIECES(name)                                                                        \
    EXPORT(name)(uint32_t at, uint32_t length, uint32_t out, uint32_t size, uint32_t ends,        \
                 uint32_t ends_size, uint32_t written, uint32_t count)                             \
    {                                                                                              \
        return pep440_##name(AT(at), length, AT(out), size, AT(ends), ends_size, AT(written),     \
                             AT(count));                                                           \
    }

WRITES_PIECES(specifiers_of)
WRITES_PIECES(boundaries)

EXPORT(error)(uint32_t kind, uint32_t at, uint32_t length, uint32_t out, uint32_t size, uint32_t written)
{
    return pep440_error((uint8_t)kind, AT(at), length, AT(out), size, AT(written));
}

/* What these return has the status in the low byte, and the answer in the next. */
static uint32_t with_answer(uint8_t status, uint8_t answer) { return status | (uint32_t)answer << 8; }

/* The answer is the order and 1: 0, 1 or 2. */
EXPORT(compare)(uint32_t left, uint32_t left_length, uint32_t right, uint32_t right_length)
{
    int8_t order = 0;
    uint8_t status = pep440_compare(AT(left), left_length, AT(right), right_length, &order);
    return with_answer(status, (uint8_t)(order + 1));
}

EXPORT(allows)(uint32_t list, uint32_t list_length, uint32_t version, uint32_t length, uint32_t prereleases)
{
    uint8_t allowed = 0, status = pep440_allows(AT(list), list_length, AT(version), length, (uint8_t)prereleases, &allowed);
    return with_answer(status, allowed);
}

/* ---- batches: the host writes the strings one behind the other, and where each ends */

/* The strings as the library takes them, or null without memory. */
static pep440_string *strings_of(uint32_t bytes, uint32_t ends, uint32_t count)
{
    const uint32_t *end = AT(ends);
    uint32_t begin = 0, i;
    tried made = rattle_alloc(count * sizeof(pep440_string), ALIGNMENT);
    pep440_string *strings = made.block;
    if (!made.succeeded)
        return 0;
    for (i = 0; i < count; begin = end[i], i++) {
        strings[i].bytes = (const uint8_t *)AT(bytes) + begin;
        strings[i].length = end[i] - begin;
    }
    return strings;
}

EXPORT(filter)(uint32_t list, uint32_t list_length, uint32_t bytes, uint32_t ends, uint32_t count, uint32_t marks)
{
    pep440_string *strings = strings_of(bytes, ends, count);
    return strings ? pep440_filter(AT(list), list_length, strings, count, AT(marks), count) : PEP440_OUT_OF_MEMORY;
}

EXPORT(sort)(uint32_t bytes, uint32_t ends, uint32_t count, uint32_t indices, uint32_t index)
{
    pep440_string *strings = strings_of(bytes, ends, count);
    return strings ? pep440_sort(strings, count, AT(indices), count, AT(index)) : PEP440_OUT_OF_MEMORY;
}

EXPORT(sort_keys)(uint32_t bytes, uint32_t ends, uint32_t count, uint32_t out, uint32_t size, uint32_t key_ends,
                  uint32_t written, uint32_t index)
{
    pep440_string *strings = strings_of(bytes, ends, count);
    return strings ? pep440_sort_keys(strings, count, AT(out), size, AT(key_ends), count, AT(written), AT(index))
                   : PEP440_OUT_OF_MEMORY;
}
