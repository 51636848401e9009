#include "random.h"

static uint64_t state;

void random_seed(uint64_t seed) {
    state = seed;
}

/* splitmix64 */
uint64_t random_next(void) {
    uint64_t z = state += 0x9E3779B97F4A7C15u;
    z = (z ^ z >> 30) * 0xBF58476D1CE4E5B9u;
    z = (z ^ z >> 27) * 0x94D049BB133111EBu;
    return z ^ z >> 31;
}

void random_fill(uint8_t *bytes, size_t len) {
    for (size_t i = 0; i < len; i++)
        bytes[i] = random_byte();
}

size_t random_edge(void) {
    static const size_t edges[] = {0, 1, 2, 11, 12, 13, 67, 68, 69, 70, 87, 88, 89, 147, 148, 149};
    return edges[random_below(sizeof edges / sizeof *edges)];
}

size_t random_near(size_t len) {
    if (!random_once_in(6))
        return len;
    if (random_once_in(2))
        return len == 0 || random_once_in(2) ? len + 1 : len - 1;
    return random_edge();
}
