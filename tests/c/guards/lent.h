/* Bytes lent to the library in a page of their own, between two that nobody may touch. */
#ifndef LENT_H
#define LENT_H

#include <stdbool.h>
#include <stddef.h>
#include <stdint.h>

enum { LENT_MOST = 4096 }; /* a page */

/* Where in their page the bytes lie: what runs over their end, or before their beginning, touches a page that is closed. */
typedef enum { AT_END, AT_BEGIN } lent_place;

typedef struct {
    uint8_t *bytes; /* as the library gets them */
    uint8_t *own;   /* the same bytes, where they can be written always */
    size_t len;
    uint8_t *page;             /* all of the page */
    uint8_t before[LENT_MOST]; /* what it held before the call */
} lent;

/* Bytes that the library may write, or may read alone. */
void lent_open(lent *slot, bool writable);

/* Lends so many bytes, of random content. */
void lend(lent *slot, size_t len, lent_place place);

/* Lends as many as there are in `content`. */
void lend_copy(lent *slot, const uint8_t *content, size_t len, lent_place place);

/* Notes what they hold, right before the call. */
void lent_note(lent *slot);

/* Nothing is written but at most this many bytes from the beginning. */
bool lent_kept_from(const lent *slot, size_t len);

/* The bytes as they were noted. */
const uint8_t *lent_before(const lent *slot);

#endif
