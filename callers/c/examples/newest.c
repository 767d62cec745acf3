/* Prints the newest of some versions that a list of specifiers matches: a pre-release only if the list asks for one, or matches nothing else.

   $ ./newest '>=1.16, <2.0' 1.15 1.19 1.20rc1 2.0
   1.19
   $ ./newest '>=2' 1.19 2.1rc1 latest
   2.1rc1
   $ ./newest '>=3' 1.19 2.1rc1
   newest: no version is matched */
#include <err.h>
#include <stdio.h>
#include <stdlib.h>

#include "pep440.h"

int main(int count, char **words)
{
    const pep440_string list = pep440_string_of(count < 3 ? "" : words[1]);
    pep440_string *versions = calloc((size_t)count, sizeof *versions);
    uint8_t status = PEP440_OUT_OF_MEMORY;
    size_t index = 0;
    int each;
    if (count < 3)
        errx(EXIT_FAILURE, "usage: newest LIST VERSION..");
    if (pep440_version_of_library() < PEP440_VERSION)
        errx(EXIT_FAILURE, "the library is older than the header that this program was compiled with");
    for (each = 2; versions && each < count; each++)
        versions[each] = pep440_string_of(words[each]);
    if (versions)
        status = pep440_newest(list.bytes, list.length, versions + 2, (size_t)count - 2, &index);
    if (status != PEP440_OK)
        errx(EXIT_FAILURE, "%s", pep440_status_text(status));
    puts(words[index + 2]);
    free(versions);
    return EXIT_SUCCESS;
}
