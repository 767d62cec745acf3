/* Prints what the versions of two lists of specifiers have to do with each other.

   $ ./sets '~=2.2' '>=2, <3'
   each version of ~=2.2 is one of >=2, <3
   $ ./sets '==1.*' '==2.*'
   no version is in both
   $ ./sets '==1.*' '!=1.*'
   no version is in both
   each version is in one of them
   $ ./sets '>=1' '===1.0'
   sets: a list with === has no set */
#include <err.h>
#include <stdio.h>
#include <stdlib.h>

#include "pep440.h"

typedef uint8_t operation(const uint8_t *left, size_t left_length, const uint8_t *right, size_t right_length, uint8_t *out, size_t size,
                          size_t *written);

static void check(uint8_t status)
{
    if (status != PEP440_OK)
        errx(EXIT_FAILURE, "%s", pep440_status_text(status));
}

/* The set that an operation makes of two lists. */
static pep440_string of_both(operation *call, pep440_string left, pep440_string right, uint8_t *room, size_t size)
{
    pep440_string set;
    check(call(left.bytes, left.length, right.bytes, right.length, room, size, &set.length));
    set.bytes = room;
    return set;
}

static int is_subset(pep440_string left, pep440_string right)
{
    uint8_t inside;
    check(pep440_is_subset(left.bytes, left.length, right.bytes, right.length, &inside));
    return inside;
}

int main(int count, char **words)
{
    static uint8_t room[4096], rest_room[4096];
    const pep440_string nothing = pep440_string_of("<0.dev0"); /* which matches no version */
    const pep440_string left = pep440_string_of(count == 3 ? words[1] : ""), right = pep440_string_of(count == 3 ? words[2] : "");
    pep440_string set, rest;
    if (count != 3)
        errx(EXIT_FAILURE, "usage: sets LIST LIST");
    if (is_subset(left, right))
        printf("each version of %s is one of %s\n", words[1], words[2]);
    if (is_subset(right, left))
        printf("each version of %s is one of %s\n", words[2], words[1]);
    set = of_both(pep440_intersection, left, right, room, sizeof room);
    if (is_subset(set, nothing))
        puts("no version is in both");
    set = of_both(pep440_union, left, right, room, sizeof room);
    check(pep440_complement(set.bytes, set.length, rest_room, sizeof rest_room, &rest.length));
    rest.bytes = rest_room;
    if (is_subset(rest, nothing))
        puts("each version is in one of them");
    return EXIT_SUCCESS;
}
