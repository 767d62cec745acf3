/* Prints how two versions are ordered.

   $ ./compare 1.10 1.9
   1.10 > 1.9
   $ ./compare 1.0rc1 1.0
   1.0rc1 < 1.0
   $ ./compare 1.0 v1.0.0
   1.0 == v1.0.0
   $ ./compare 1.0 latest
   compare: the right one is invalid */
#include <err.h>
#include <stdio.h>
#include <stdlib.h>

#include "pep440.h"

int main(int count, char **words)
{
    int8_t order;
    uint8_t status;
    if (count != 3)
        errx(EXIT_FAILURE, "usage: compare VERSION VERSION");
    status = pep440_compare_strings(words[1], words[2], &order);
    if (status != PEP440_OK)
        errx(EXIT_FAILURE, "%s", pep440_status_text(status));
    printf("%s %s %s\n", words[1], order < 0 ? "<" : order > 0 ? ">" : "==", words[2]);
    return EXIT_SUCCESS;
}
