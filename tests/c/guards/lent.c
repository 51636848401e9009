#define _GNU_SOURCE
#include "lent.h"

#include <stdio.h>
#include <stdlib.h>
#include <string.h>
#include <sys/mman.h>
#include <unistd.h>

#include "random.h"

static uint8_t *map(uint8_t *at, size_t len, int protection, int flags, int file) {
    void *mapped = mmap(at, len, protection, flags, file, 0);
    if (mapped == MAP_FAILED) {
        perror("mmap");
        exit(2);
    }
    return (uint8_t *)mapped;
}

/* The page is mapped twice: between closed pages for the library, and once more for writing what it lends. */
void lent_open(lent *slot, bool writable) {
    int file = memfd_create("lent", 0);
    if (file < 0 || ftruncate(file, LENT_MOST) != 0 || sysconf(_SC_PAGESIZE) != LENT_MOST) {
        perror("a page of memory");
        exit(2);
    }
    uint8_t *closed = map(NULL, 3 * LENT_MOST, PROT_NONE, MAP_PRIVATE | MAP_ANONYMOUS, -1);
    slot->page = map(closed + LENT_MOST, LENT_MOST, writable ? PROT_READ | PROT_WRITE : PROT_READ, MAP_SHARED | MAP_FIXED, file);
    slot->own = map(NULL, LENT_MOST, PROT_READ | PROT_WRITE, MAP_SHARED, file);
    random_fill(slot->own, LENT_MOST);
    slot->bytes = slot->page;
    close(file);
}

/* Where the bytes begin in their page. */
static size_t offset(const lent *slot) {
    return (size_t)(slot->bytes - slot->page);
}

static uint8_t *lend_place(lent *slot, size_t len, lent_place place) {
    slot->len = len;
    slot->bytes = slot->page + (place == AT_BEGIN ? 0 : LENT_MOST - len);
    return slot->own + offset(slot);
}

void lend(lent *slot, size_t len, lent_place place) {
    random_fill(lend_place(slot, len, place), len);
}

void lend_copy(lent *slot, const uint8_t *content, size_t len, lent_place place) {
    memcpy(lend_place(slot, len, place), content, len);
}

void lent_note(lent *slot) {
    memcpy(slot->before, slot->own, LENT_MOST);
}

bool lent_kept_from(const lent *slot, size_t len) {
    size_t begin = offset(slot), rest = begin + len;
    return len <= slot->len && memcmp(slot->before, slot->own, begin) == 0 &&
           memcmp(slot->before + rest, slot->own + rest, LENT_MOST - rest) == 0;
}

const uint8_t *lent_before(const lent *slot) {
    return slot->before + offset(slot);
}
