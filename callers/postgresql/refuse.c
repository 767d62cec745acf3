/* For the tests: preloaded into the server, it refuses one request for memory of the backend that asks for that, and it is a module whose SQL functions ask.

   refuse(number, own): counts from now on, and refuses request `number`; of all requests, or, with `own`, of those of the extension's library alone.
   requests(): how many were counted since; it ends the counting. */
#define _GNU_SOURCE
#include <dlfcn.h>

#include "server.h"

extern void *__libc_malloc(size_t);
extern void *__libc_realloc(void *, size_t);
extern void *__libc_calloc(size_t, size_t);

PG_MODULE_MAGIC;

static bool counts, own_alone;
static int64 counted, refused_number;

/* Whether the code at this address is the extension's. */
static bool is_own(const void *caller)
{
    Dl_info found;
    const char *name = dladdr(caller, &found) != 0 && found.dli_fname != NULL ? strrchr(found.dli_fname, '/') : NULL;
    return name != NULL && strcmp(name, "/pep440.so") == 0;
}

static bool refuses(const void *caller)
{
    if (!counts || (own_alone && !is_own(caller)))
        return false;
    return ++counted == refused_number;
}

void *malloc(size_t size)
{
    return refuses(__builtin_return_address(0)) ? NULL : __libc_malloc(size);
}

void *realloc(void *old, size_t size)
{
    return refuses(__builtin_return_address(0)) ? NULL : __libc_realloc(old, size);
}

void *calloc(size_t count, size_t size)
{
    return refuses(__builtin_return_address(0)) ? NULL : __libc_calloc(count, size);
}

PG_FUNCTION_INFO_V1(refuse);
Datum refuse(PG_FUNCTION_ARGS)
{
    refused_number = PG_GETARG_INT64(0);
    own_alone = PG_GETARG_BOOL(1);
    counted = 0;
    counts = true;
    PG_RETURN_VOID();
}

PG_FUNCTION_INFO_V1(requests);
Datum requests(PG_FUNCTION_ARGS)
{
    (void)fcinfo;
    counts = false;
    PG_RETURN_INT64(counted);
}
