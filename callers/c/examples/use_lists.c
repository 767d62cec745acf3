/* Prints which of the lists that keep_lists.c kept in a file allow a version. The file is mapped: no list is copied, or parsed again.

   $ ./keep_lists lists '>=1.16, <2.0' '~=1.4.2' && ./use_lists lists 1.19
   list 1: yes
   list 2: no
   $ printf 'abcdefgh!' >broken && ./use_lists broken 1.19
   use_lists: broken: not a file of lists */
#include <err.h>
#include <fcntl.h>
#include <stdio.h>
#include <stdlib.h>
#include <sys/mman.h>
#include <unistd.h>

#include "pep440.h"

int main(int count, char **words)
{
    int file = count == 3 ? open(words[1], O_RDONLY) : -1, number;
    size_t rest = file < 0 ? 0 : (size_t)lseek(file, 0, SEEK_END), length, size, unused;
    const uint8_t *list = mmap(NULL, rest, PROT_READ, MAP_PRIVATE, file, 0);
    uint8_t version[1024], allowed;
    if (list == MAP_FAILED)
        err(EXIT_FAILURE, "usage: use_lists FILE VERSION");
    if (pep440_compile_string(words[2], version, sizeof version, &size) != PEP440_OK)
        errx(EXIT_FAILURE, "%s: not a version, or too long", words[2]);
    for (number = 1; rest > sizeof length; number++, list += length, rest -= length) {
        memcpy(&length, list, sizeof length);
        list += sizeof length, rest -= sizeof length;
        /* Who knows who wrote the file: the first call looks at all bytes, which the second one does not. */
        if (length > rest || pep440_list_error(list, length, NULL, 0, &unused) != PEP440_OK ||
            pep440_allows(list, length, version, size, PEP440_ALL_PRERELEASES, &allowed) != PEP440_OK)
            break;
        printf("list %d: %s\n", number, allowed ? "yes" : "no");
    }
    if (rest > 0)
        errx(EXIT_FAILURE, "%s: not a file of lists", words[1]);
    return EXIT_SUCCESS;
}
