/* Prints the version that changes make of a version, one after the other, or which change cannot be made, and why.

   $ ./edit 1.0a1.dev3 dev= post=2
   1.0a1.post2
   $ ./edit 1.0a1 post=2 post=two
   edit: 1.0a1: change 2: not a change */
#include <err.h>
#include <stdio.h>
#include <stdlib.h>

#include "pep440.h"

enum { MOST = 64 };

int main(int count, char **words)
{
    pep440_string version, changes[MOST];
    char out[1024];
    size_t length = 0, written;
    uint8_t status;
    if (count < 2 || count > 2 + MOST)
        errx(EXIT_FAILURE, "usage: edit VERSION CHANGE..");
    version = pep440_string_of(words[1]);
    while (words[2 + length]) {
        changes[length] = pep440_string_of(words[2 + length]);
        length++;
    }
    status = pep440_edit(version.bytes, version.length, changes, length, (uint8_t *)out, sizeof out, &written);
    if ((status == PEP440_INVALID_VERSION || status == PEP440_INVALID_CHANGE) &&
        !pep440_edit_error(version.bytes, version.length, changes, length, (uint8_t *)out, sizeof out, &written))
        errx(EXIT_FAILURE, "%s: %.*s", words[1], (int)written, out);
    if (status != PEP440_OK)
        errx(EXIT_FAILURE, "%s: %s", words[1], pep440_status_text(status));
    printf("%.*s\n", (int)written, out);
    return EXIT_SUCCESS;
}
