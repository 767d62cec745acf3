/* Keeps compiled lists of specifiers in a file, which use_lists.c maps: of each its length and its bytes.

   $ ./keep_lists lists '>=1.16, <2.0' '~=1.4.2' && wc -c lists
   106 lists
   $ ./keep_lists lists '>=1.16; <2.0'
   keep_lists: >=1.16; <2.0: not a list of specifiers, or not a specifier */
#include <err.h>
#include <stdio.h>
#include <stdlib.h>

#include "pep440.h"

int main(int count, char **words)
{
    FILE *file = count < 3 ? NULL : fopen(words[1], "wb");
    int each;
    if (!file)
        err(EXIT_FAILURE, "usage: keep_lists FILE LIST..");
    for (each = 2; each < count; each++) {
        size_t length = 0;
        uint8_t status = pep440_compile_list_string(words[each], NULL, 0, &length), *list = malloc(length);
        if (status == PEP440_NO_ROOM)
            status = list ? pep440_compile_list_string(words[each], list, length, &length) : PEP440_OUT_OF_MEMORY;
        if (status != PEP440_OK)
            errx(EXIT_FAILURE, "%s: %s", words[each], pep440_status_text(status));
        if (!fwrite(&length, sizeof length, 1, file) || fwrite(list, 1, length, file) < length)
            err(EXIT_FAILURE, "%s", words[1]);
        free(list);
    }
    if (fclose(file))
        err(EXIT_FAILURE, "%s", words[1]);
    return EXIT_SUCCESS;
}
