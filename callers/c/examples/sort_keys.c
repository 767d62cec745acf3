/* Prints each version after its sort key; one call makes all keys, in a buffer of the size that a first one asks for.

   $ ./sort_keys 1.10 1.9 1.10rc1 | LC_ALL=C sort | cut -d ' ' -f 2
   1.9
   1.10rc1
   1.10
   $ ./sort_keys 1.10 latest
   sort_keys: latest: not a version */
#include <err.h>
#include <stdio.h>
#include <stdlib.h>

#include "pep440.h"

enum { MOST = 1000 };

int main(int count, char **words)
{
    static pep440_string versions[MOST];
    static size_t ends[MOST], length, each, at;
    uint8_t status, *keys;
    size_t written, invalid;
    for (; count <= MOST && words[1 + length]; length++)
        versions[length] = pep440_string_of(words[1 + length]);
    status = pep440_sort_keys(versions, length, NULL, 0, ends, length, &written, &invalid);
    keys = status == PEP440_NO_ROOM ? malloc(written) : NULL;
    if (keys)
        status = pep440_sort_keys(versions, length, keys, written, ends, length, &written, &invalid);
    if (status == PEP440_INVALID_VERSION)
        errx(EXIT_FAILURE, "%s: %s", words[1 + invalid], pep440_status_text(status));
    if (status != PEP440_OK)
        errx(EXIT_FAILURE, "%s", pep440_status_text(status));
    for (each = 0; each < length; each++) {
        while (at < ends[each])
            printf("%02x", keys[at++]);
        printf(" %s\n", words[1 + each]);
    }
    return EXIT_SUCCESS;
}
