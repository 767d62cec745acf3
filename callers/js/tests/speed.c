/* What the C library takes for the calls of speed.js, in nanoseconds of processor: a line for each, its name and the least of 25 turns. */
#define _POSIX_C_SOURCE 199309L
#include <stdio.h>
#include <stdlib.h>
#include <time.h>

#include "pep440.h"

enum { TURNS = 25, CALLS = 50000, BATCH = 10000 };

static const char list[] = ">=1.16, <2.0, !=1.19.*";
static uint8_t compiled[256], one[64], marks[BATCH];
static size_t compiled_length, one_length;
static char names[BATCH][24];
static pep440_string strings[BATCH];
static uint8_t allowed;

static void of_strings(size_t i) { pep440_allows((const uint8_t *)list, sizeof list - 1, strings[i].bytes, strings[i].length, 2, &allowed); }
static void of_compiled_list(size_t i) { pep440_allows(compiled, compiled_length, strings[i].bytes, strings[i].length, 2, &allowed); }
static void of_compiled_both(size_t i) { (void)i; pep440_allows(compiled, compiled_length, one, one_length, 2, &allowed); }
static void of_a_batch(size_t i) { (void)i; pep440_filter((const uint8_t *)list, sizeof list - 1, strings, BATCH, marks, BATCH); }

static void measure(const char *name, void (*call)(size_t), size_t count)
{
    double least = 1e18;
    for (int turn = 0; turn < TURNS; turn++) {
        struct timespec from, to;
        clock_gettime(CLOCK_PROCESS_CPUTIME_ID, &from);
        for (size_t i = 0; i < count; i++)
            call(i % BATCH);
        clock_gettime(CLOCK_PROCESS_CPUTIME_ID, &to);
        double taken = ((double)(to.tv_sec - from.tv_sec) * 1e9 + (double)(to.tv_nsec - from.tv_nsec)) / (double)count;
        if (taken < least)
            least = taken;
    }
    printf("%s %.1f\n", name, least);
}

int main(void)
{
    for (int i = 0; i < BATCH; i++) {
        snprintf(names[i], sizeof names[i], "%d.%d.%d%s", i % 3, i % 31, i % 17, i % 5 ? "" : "rc1");
        strings[i] = pep440_string_of(names[i]);
    }
    if (pep440_compile_list((const uint8_t *)list, sizeof list - 1, compiled, sizeof compiled, &compiled_length) || pep440_compile((const uint8_t *)"1.18.3", 6, one, sizeof one, &one_length))
        return 1;
    measure("strings", of_strings, CALLS);
    measure("compiled_list", of_compiled_list, CALLS);
    measure("compiled_both", of_compiled_both, CALLS);
    measure("batch", of_a_batch, 20);
    return 0;
}
