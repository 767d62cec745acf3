/* Prints which versions a list of specifiers matches.

   $ ./match '>=1.16, <2.0' 1.15 1.16.0 1.20rc1 latest
   1.15: no
   1.16.0: yes
   1.20rc1: yes, a pre-release
   latest: not a version
   $ ./match '>=1.16; <2.0' 1.19
   match: >=1.16; <2.0: not a list of specifiers, or not a specifier */
#include <err.h>
#include <stdio.h>
#include <stdlib.h>

#include "pep440.h"

int main(int count, char **words)
{
    static const char *const answers[] = {"no", "yes", "not a version", "yes, a pre-release"}; /* by mark */
    const pep440_string list = pep440_string_of(count < 3 ? "" : words[1]);
    pep440_string *versions = calloc((size_t)count, sizeof *versions);
    uint8_t *marks = calloc((size_t)count, 1), status = PEP440_OUT_OF_MEMORY;
    int each;
    if (count < 3)
        errx(EXIT_FAILURE, "usage: match LIST VERSION..");
    for (each = 2; versions && each < count; each++)
        versions[each] = pep440_string_of(words[each]);
    if (versions && marks)
        status = pep440_filter(list.bytes, list.length, versions + 2, (size_t)count - 2, marks + 2, (size_t)count - 2);
    if (status != PEP440_OK)
        errx(EXIT_FAILURE, "%s: %s", words[1], pep440_status_text(status));
    for (each = 2; each < count; each++)
        printf("%s: %s\n", words[each], answers[marks[each]]);
    free(versions);
    free(marks);
    return EXIT_SUCCESS;
}
