/* Reads versions, a line each, and writes SQL that stores each beside its sort key and selects them `ORDER BY key`: the database puts them
   in order, and knows nothing of versions.

   $ printf '1.10\n1.9\n1.10rc1\n' | ./order_by | sqlite3 :memory:
   1.9
   1.10rc1
   1.10 */
#include <err.h>
#include <stdio.h>
#include <stdlib.h>

#include "pep440.h"

int main(void)
{
    char line[4096], version[4096];
    uint8_t key[PEP440_SORT_KEY_BOUND(4096)];
    size_t length, each;
    puts("CREATE TABLE releases (version TEXT, key BLOB);\nCREATE INDEX by_key ON releases (key);\nBEGIN;");
    while (fgets(line, sizeof line, stdin)) {
        uint8_t status = pep440_normalize_string(line, version, sizeof version);
        if (status == PEP440_OK)
            status = pep440_sort_key_string(line, key, sizeof key, &length);
        if (status != PEP440_OK)
            errx(EXIT_FAILURE, "%.*s: %s", (int)strcspn(line, "\n"), line, pep440_status_text(status));
        /* No normal form holds a quote. */
        printf("INSERT INTO releases VALUES ('%s', x'", version);
        for (each = 0; each < length; each++)
            printf("%02x", key[each]);
        puts("');");
    }
    puts("COMMIT;\nSELECT version FROM releases ORDER BY key, rowid;");
    return EXIT_SUCCESS;
}
