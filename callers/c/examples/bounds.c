/* Prints the specifiers of a list, and the bounds of its range: the kind of each, and bytes that have the order of versions.

   $ ./bounds '<2.0, >=v1.16'
   >=1.16, <2.0
   included 00020102100050001000
   excluded 000202000000000001
   $ ./bounds '>=1.16,'
   bounds: not a list of specifiers, or not a specifier */
#include <err.h>
#include <stdio.h>
#include <stdlib.h>

#include "pep440.h"

enum { MOST = 128 };

static void check(uint8_t status)
{
    if (status != PEP440_OK)
        errx(EXIT_FAILURE, "%s", pep440_status_text(status));
}

/* Of each specifier there are two strings: its operator, and its version. */
static void print_specifiers(pep440_string list)
{
    static uint8_t strings[4096], specifier[1024];
    size_t ends[MOST], size, count, length, each, start = 0;
    check(pep440_specifiers_of(list.bytes, list.length, strings, sizeof strings, ends, MOST, &size, &count));
    for (each = 0; each < count; start = ends[each + 1], each += 2) {
        check(pep440_specifier(strings + start, ends[each] - start, strings + ends[each], ends[each + 1] - ends[each], specifier,
                               sizeof specifier, &length));
        printf("%s%.*s", each ? ", " : "", (int)length, (const char *)specifier);
    }
    puts("");
}

/* After the kind come the format of a compiled version, which is left out, and its sort key. */
static void print_bounds(pep440_string list)
{
    static const char *const kinds[] = {"none", "included ", "excluded "};
    static uint8_t bytes[4096];
    size_t ends[MOST], size, count, each, place, start = 0;
    check(pep440_range_bounds(list.bytes, list.length, bytes, sizeof bytes, ends, MOST, &size, &count));
    for (each = 0; each < count; start = ends[each], each++) {
        fputs(kinds[bytes[start]], stdout);
        for (place = start + 2; place < ends[each]; place++)
            printf("%02x", bytes[place]);
        puts("");
    }
}

int main(int count, char **words)
{
    const pep440_string list = pep440_string_of(count == 2 ? words[1] : "");
    if (count != 2)
        errx(EXIT_FAILURE, "usage: bounds LIST");
    print_specifiers(list);
    print_bounds(list);
    return EXIT_SUCCESS;
}
