/* Checks that are counted, and named by the seed of what they were made on. */
#ifndef CHECK_H
#define CHECK_H

#include <stdio.h>

static unsigned long long passed, failed;

static void check(int holds, const char *what, unsigned long long seed) {
    if (holds) {
        passed++;
    } else {
        failed++;
        printf("FAILED %s, seed %llu\n", what, seed);
    }
}

#endif
