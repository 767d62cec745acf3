/* Prints the lines of standard input, a million at most, in the order of their versions, and no empty lines.

   $ printf '1.10\n1.9\nv1.10-RC1\n1.0.dev1\n' | ./sort
   1.0.dev1
   1.9
   v1.10-RC1
   1.10
   $ printf '1.10\nlatest\n' | ./sort
   sort: latest: not a version */
#include <err.h>
#include <stdio.h>
#include <stdlib.h>

#include "pep440.h"

enum { MOST = 1000000, BYTES = 1 << 26 };

int main(void)
{
    static char text[BYTES + 1], *line;
    static pep440_string versions[MOST];
    static size_t indices[MOST], count, each, invalid;
    size_t length = fread(text, 1, BYTES, stdin);
    uint8_t status;
    if (strlen(text) < length || length == BYTES)
        errx(EXIT_FAILURE, "a zero byte, or too many bytes");
    for (line = strtok(text, "\n"); line && count < MOST; line = strtok(NULL, "\n"))
        versions[count++] = pep440_string_of(line);
    status = line ? PEP440_NO_ROOM : pep440_sort(versions, count, indices, count, &invalid);
    if (status == PEP440_INVALID_VERSION)
        errx(EXIT_FAILURE, "%s: %s", (const char *)versions[invalid].bytes, pep440_status_text(status));
    if (status != PEP440_OK)
        errx(EXIT_FAILURE, "%s", pep440_status_text(status));
    for (each = 0; each < count; each++)
        puts((const char *)versions[indices[each]].bytes);
    return EXIT_SUCCESS;
}
