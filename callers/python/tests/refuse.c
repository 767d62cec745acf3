/* Preloaded before Python: refuses one request of malloc, calloc or realloc, counted from when it was armed, on the thread that armed it.
   Armed with 0 it refuses none any more. */
#include <stddef.h>

extern void *__libc_malloc(size_t);
extern void *__libc_calloc(size_t, size_t);
extern void *__libc_realloc(void *, size_t);

static __thread long left;
static __thread int came;

void refuse_arm(long number)
{
    left = number;
    if (number)
        came = 0;
}

int refuse_came(void) { return came; }

static int refuses(void)
{
    if (left == 0 || --left != 0)
        return 0;
    came = 1;
    return 1;
}

void *malloc(size_t size) { return refuses() ? NULL : __libc_malloc(size); }
void *calloc(size_t count, size_t size) { return refuses() ? NULL : __libc_calloc(count, size); }
void *realloc(void *old, size_t size) { return refuses() ? NULL : __libc_realloc(old, size); }
