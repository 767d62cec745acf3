/* The functions of runtime.c by the contracts that the proofs assume of them: the heap at each size and alignment and where it fails, the arguments
   and errno. It is linked with them by --wrap=main. */
#include <stdbool.h>
#include <stddef.h>
#include <stdint.h>
#include <stdio.h>
#include <string.h>
#include <unistd.h>

typedef struct {
    bool is_allocated;
    uint8_t *block;
} allocation;

allocation rattle_alloc(size_t size, size_t alignment);
allocation rattle_realloc(uint8_t *block, size_t kept, size_t size, size_t alignment);
void rattle_dealloc(uint8_t *block);
size_t rattle_arg_count(void);
ptrdiff_t rattle_arg(size_t index, uint8_t *buffer, size_t size);
int32_t rattle_errno(void);
void rattle_set_errno(int32_t error);

#define TOO_MUCH ((size_t)1 << 62)

static size_t checks, wrong;

static void check(bool holds, const char *what, size_t size, size_t alignment)
{
    checks++;
    if (holds)
        return;
    wrong++;
    printf("%s: size %zu, alignment %zu\n", what, size, alignment);
}

static bool has_pattern(const uint8_t *block, size_t size)
{
    for (size_t at = 0; at < size; at++)
        if (block[at] != (uint8_t)(at * 7 + 1))
            return false;
    return true;
}

static void write_pattern(uint8_t *block, size_t size)
{
    for (size_t at = 0; at < size; at++)
        block[at] = (uint8_t)(at * 7 + 1);
}

/* A block is aligned; made one of another size it keeps what fits, and where that fails, all. */
static void check_heap(size_t size, size_t other, size_t alignment)
{
    size_t kept = size < other ? size : other;
    allocation made = rattle_alloc(size, alignment);
    check(made.is_allocated && made.block && (uintptr_t)made.block % alignment == 0, "rattle_alloc", size, alignment);
    write_pattern(made.block, size);
    allocation failed = rattle_realloc(made.block, kept, TOO_MUCH, alignment);
    check(!failed.is_allocated && failed.block && has_pattern(made.block, size), "rattle_realloc that fails", size, alignment);
    made = rattle_realloc(made.block, kept, other, alignment);
    check(made.is_allocated && made.block && (uintptr_t)made.block % alignment == 0 && has_pattern(made.block, kept), "rattle_realloc", other, alignment);
    write_pattern(made.block, other);
    rattle_dealloc(made.block);
}

static void check_arguments(int count, char **arguments)
{
    uint8_t buffer[64];
    check(rattle_arg_count() == (size_t)count, "rattle_arg_count", count, 0);
    check(rattle_arg(count, buffer, sizeof buffer) == -1, "rattle_arg of none", count, 0);
    check(rattle_arg(SIZE_MAX, buffer, sizeof buffer) == -1, "rattle_arg of none", SIZE_MAX, 0);
    for (int index = 1; index < count; index++) {
        size_t length = strlen(arguments[index]);
        for (size_t size = 0; size <= length + 1; size++) {
            memset(buffer, '#', sizeof buffer);
            ptrdiff_t wanted = length <= size ? (ptrdiff_t)length : -2;
            size_t written = length <= size ? length : size;
            check(rattle_arg(index, buffer, size) == wanted, "rattle_arg", size, 0);
            check(!memcmp(buffer, arguments[index], written) && buffer[written] == '#', "the buffer of rattle_arg", size, 0);
        }
    }
}

static void check_errno(void)
{
    close(-1);
    check(rattle_errno() == 9, "rattle_errno of a descriptor that is not open", 0, 0);
    rattle_set_errno(0);
    check(rattle_errno() == 0, "rattle_set_errno", 0, 0);
}

int main(int count, char **arguments)
{
    static const size_t sizes[] = {0, 16, 32, 48, 240, 4096, 70000};
    allocation failed = rattle_alloc(TOO_MUCH, 1);
    check(!failed.is_allocated && failed.block, "rattle_alloc that fails", TOO_MUCH, 1);
    for (size_t alignment = 1; alignment <= 16; alignment *= 2)
        for (size_t at = 0; at < sizeof sizes / sizeof *sizes; at++)
            for (size_t to = 0; to < sizeof sizes / sizeof *sizes; to++)
                check_heap(sizes[at], sizes[to], alignment);
    check_arguments(count, arguments);
    check_errno();
    printf("%zu checks, %zu wrong\n", checks, wrong);
    return wrong != 0;
}
