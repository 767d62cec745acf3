/* Prints versions in normal form, or why a string is no version.

   $ ./normalize ' V1!1.0-Alpha.2-3.DEV+Ubuntu-01 ' 1.0-1
   1!1.0a2.post3.dev0+ubuntu.1
   1.0.post1
   $ ./normalize 1.0prev
   normalize: 1.0prev: after parsing `1.0pre`, found `v`, which is not part of a valid version */
#include <err.h>
#include <stdio.h>
#include <stdlib.h>

#include "pep440.h"

int main(int count, char **words)
{
    char out[1024];
    size_t written;
    int each;
    for (each = 1; each < count; each++) {
        const pep440_string version = pep440_string_of(words[each]);
        uint8_t status = pep440_normalize_string(words[each], out, sizeof out);
        if (status == PEP440_INVALID_VERSION && !pep440_version_error(version.bytes, version.length, (uint8_t *)out, sizeof out, &written))
            errx(EXIT_FAILURE, "%s: %.*s", words[each], (int)written, out);
        if (status != PEP440_OK)
            errx(EXIT_FAILURE, "%s: %s", words[each], pep440_status_text(status));
        puts(out);
    }
    return EXIT_SUCCESS;
}
