/* A fact that has to hold: where it does not, it is said, and counted as a failure. */
#ifndef CHECK_H
#define CHECK_H

#include <stdio.h>

static int failures;

#define CHECK(fact) check((fact), #fact, __FILE__, __LINE__)
static inline void check(int fact, const char *words, const char *file, int line) {
    if (!fact) {
        printf("%s, line %d: not so: %s\n", file, line, words);
        failures++;
    }
}

#endif
