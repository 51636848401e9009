/* What both examples read and print: a file of what the bus does, pairs of bytes (event, argument); a badge, or why there is none. */
#ifndef BADGE_IO_H
#define BADGE_IO_H

#include <stdbool.h>
#include <stdio.h>

#include "perlovasta_terms.h"

enum { READER = 0x50, BADGE = 8, SCRIPT = 4096 };

/* How the examples end: with a badge; with none; with nothing that could be told. */
enum { ENDED_BADGE = 0, ENDED_NO_BADGE = 1, ENDED_NOT_TOLD = 2 };

typedef struct {
    uint8_t bytes[SCRIPT];
    size_t length;
} bus_script;

/* Reads the whole file; false, with the reason said, where that can't be had. */
static inline bool read_script(bus_script *bus, const char *name) {
    FILE *file = fopen(name, "rb");
    if (file == NULL) {
        perror(name);
        return false;
    }
    bus->length = fread(bus->bytes, 1, sizeof bus->bytes, file);
    bool too_long = fgetc(file) != EOF, failed = ferror(file) != 0;
    if (failed)
        perror(name);
    else if (too_long)
        fprintf(stderr, "%s: over %d bytes\n", name, SCRIPT);
    fclose(file);
    return !failed && !too_long;
}

static inline void print_badge(const perlovasta_read_result *badge) {
    fputs("badge", stdout);
    for (size_t i = 0; i < badge->n; i++)
        printf(" %02X", badge->bytes[i]);
    putchar('\n');
}

/* Why there is none; the refusal is for that answer alone. */
static inline void print_why_not(uint8_t answer, uint8_t refusal) {
    printf("no badge: %s", perlovasta_words(answer));
    if (answer == PERLOVASTA_REFUSED)
        printf(": refusal %u", refusal);
    putchar('\n');
}

/* The exit status. What could not be written does not pass for told. */
static inline int ending(uint8_t answer) {
    if (fflush(stdout) != 0 || ferror(stdout)) {
        perror("standard output");
        return ENDED_NOT_TOLD;
    }
    return answer == PERLOVASTA_DONE ? ENDED_BADGE : ENDED_NO_BADGE;
}

#endif
