/* The C functions that the proved code calls: the heap and, in a program, its arguments and errno. Nothing here is proved; the proofs assume what
   the toolchain says of each (libc/src/heap.rt and os/src/c.rt there). No alignment is above 16, which malloc gives. */
#include <stdbool.h>
#include <stddef.h>
#include <stdint.h>
#include <stdlib.h>

typedef struct {
    bool is_allocated;
    uint8_t *block;
} allocation;

/* What points nowhere points here, since no pointer may be null. */
static uint8_t nowhere;

static allocation from_pointer(uint8_t *block) { return (allocation){block != NULL, block ? block : &nowhere}; }

/* A block without bytes has those of its alignment: C may return null for 0. */
allocation rattle_alloc(size_t size, size_t alignment) { return from_pointer(malloc(size ? size : alignment)); }

allocation rattle_realloc(uint8_t *block, size_t kept, size_t size, size_t alignment)
{
    (void)kept; /* realloc keeps all that fits */
    return from_pointer(realloc(block, size ? size : alignment));
}

void rattle_dealloc(uint8_t *block) { free(block); }

#ifdef PEP440_PROGRAM
#include <errno.h>
#include <string.h>

static size_t count;
static char **arguments;

size_t rattle_arg_count(void) { return count; }

/* The length of the argument, which is written to the buffer; -1 if there is none, -2 if only its beginning fits. */
ptrdiff_t rattle_arg(size_t index, uint8_t *buffer, size_t size)
{
    if (index >= count)
        return -1;
    size_t length = strlen(arguments[index]);
    memcpy(buffer, arguments[index], length < size ? length : size);
    return length <= size ? (ptrdiff_t)length : -2;
}

int32_t rattle_errno(void) { return errno; }

void rattle_set_errno(int32_t error) { errno = error; }

/* The linker has main called by this name (--wrap=main): only glibc would pass the arguments to a constructor. */
int __real_main(int argument_count, char **argument_values);

int __wrap_main(int argument_count, char **argument_values)
{
    count = (size_t)argument_count;
    arguments = argument_values;
    return __real_main(argument_count, argument_values);
}
#endif
