#include "tally.h"

#include <stdbool.h>
#include <stddef.h>
#include <stdio.h>
#include <stdlib.h>

static bool met[MET_KINDS][256];

void tally_meet(met_kind kind, uint8_t number) {
    met[kind][number] = true;
}

/* The numbers of each kind, after how many there are. */
static const struct {
    const char *name;
    size_t length;
    uint8_t numbers[14];
} wanted[MET_KINDS] = {
    {"answer of perlovasta_job", 9, {0, 21, 23, 24, 25, 26, 27, 28, 29}},
    {"answer of perlovasta_chip_job", 10, {0, 21, 22, 23, 24, 25, 26, 27, 28, 29}},
    {"refusal", 11, {0, 1, 2, 3, 4, 5, 6, 7, 8, 9, 10}},
    {"turn", 14, {0, 1, 2, 3, 4, 5, 6, 7, 8, 9, 10, 11, 17, 24}},
    {"answer of the port", 9, {0, 21, 22, 23, 24, 25, 26, 27, 29}},
    {"answer of perlovasta_take", 9, {0, 21, 22, 23, 24, 25, 26, 27, 29}},
};

static void check_kind(met_kind kind) {
    for (size_t i = 0; i < wanted[kind].length; i++)
        if (!met[kind][wanted[kind].numbers[i]]) {
            printf("guards: never met: %s %u\n", wanted[kind].name, wanted[kind].numbers[i]);
            exit(1);
        }
}

void tally_check(void) {
    for (unsigned kind = 0; kind < MET_KINDS; kind++)
        check_kind((met_kind)kind);
}
