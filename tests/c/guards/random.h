/* Numbers that look random and are the same each time. */
#ifndef RANDOM_H
#define RANDOM_H

#include <stdbool.h>
#include <stddef.h>
#include <stdint.h>

void random_seed(uint64_t seed);
uint64_t random_next(void);

/* Below this bound, which is not 0. */
static inline size_t random_below(size_t bound) {
    return (size_t)(random_next() % bound);
}
static inline uint8_t random_byte(void) {
    return (uint8_t)random_next();
}
/* True once in so many times. */
static inline bool random_once_in(size_t times) {
    return random_below(times) == 0;
}

void random_fill(uint8_t *bytes, size_t len);

/* A length at which something changes. */
size_t random_edge(void);

/* This length mostly; else one next to it, or an edge. */
size_t random_near(size_t len);

#endif
