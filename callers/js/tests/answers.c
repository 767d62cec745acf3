/* The C library's answers to cases of random.test.js: on each line a letter for the call and its strings as hexadecimal digits, with blanks between
   them; on each line of the output the status, and what was written. */
#include <stdio.h>
#include <stdlib.h>
#include <string.h>

#include "pep440.h"

enum { MOST = 64, ROOM = 1 << 16 };
#define UNKNOWN ((size_t)-1)

static uint8_t bytes[ROOM], out[ROOM];
static pep440_string given[MOST];
static size_t ends[ROOM], indices[MOST];

static size_t read_case(char *line)
{
    size_t count = 0, used = 0;
    for (char *word = strtok(line, " \n"); word; word = strtok(0, " \n")) {
        given[count].bytes = bytes + used;
        /* a point before the digits, so that the empty string is a word too */
        for (char *digit = word + 1; *digit; digit += 2) {
            unsigned byte;
            sscanf(digit, "%2x", &byte);
            bytes[used++] = (uint8_t)byte;
        }
        given[count].length = (size_t)(bytes + used - given[count].bytes);
        count++;
    }
    return count;
}

static void print(uint8_t status, size_t length)
{
    printf("%d ", status);
    for (size_t i = 0; !status && i < length; i++)
        printf("%02x", out[i]);
    putchar('\n');
}

static void print_intervals(const uint8_t *list, size_t length)
{
    size_t written, count;
    uint8_t status = pep440_boundaries(list, length, out, ROOM, ends, ROOM, &written, &count);
    for (size_t i = 0; !status && i < count; i++)
        printf("%zu ", ends[i]);
    print(status, written);
}

#define A given[0].bytes, given[0].length
#define B given[1].bytes, given[1].length

static void answer(char call, size_t count)
{
    size_t written = 0, length = UNKNOWN;
    uint8_t status;
    switch (call) {
    case 'n': status = pep440_normalize(A, out, ROOM, &written); break;
    case 'e': status = pep440_error(PEP440_A_VERSION, A, out, ROOM, &written); break;
    case 's': status = pep440_error(PEP440_A_SPECIFIER, A, out, ROOM, &written); break;
    case 'l': status = pep440_normalize_list(A, out, ROOM, &written); break;
    case 'k': status = pep440_sort_key(A, out, ROOM, &written); break;
    case 'v': status = pep440_compile(A, out, ROOM, &written); break;
    case 'i': status = pep440_compile_list(A, out, ROOM, &written); break;
    case 'w': status = pep440_version_in(A, out, ROOM, &written); break;
    case 'c': status = pep440_compare(A, B, (int8_t *)out); length = 1; break;
    case 'a': status = pep440_allows(A, B, 2, out); length = 1; break;
    case 'f': status = pep440_filter(A, given + 1, count - 1, out, ROOM); length = count - 1; break;
    case 'b': print_intervals(A); return;
    case 'o':
        status = pep440_sort(given, count, indices, MOST, &written);
        for (size_t i = 0; i < count; i++)
            out[i] = (uint8_t)indices[i];
        length = count;
        break;
    default: exit(2);
    }
    print(status, length == UNKNOWN ? written : length);
}

int main(void)
{
    static char line[4 * ROOM];
    while (fgets(line, sizeof line, stdin))
        answer(line[0], read_case(line + 1));
    return 0;
}
