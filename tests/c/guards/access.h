/* Reads, writes and events on a controller in lent bytes of any content: what each replies and writes is what perlovasta.h says. */
#ifndef ACCESS_H
#define ACCESS_H

#include "lent.h"
#include "perlovasta.h"

/* The kinds of a trace's groups. */
typedef enum { ACCESS_READ = 0, ACCESS_WRITE = 1, ACCESS_EVENT = 2 } access_kind;

typedef struct {
    access_kind kind;
    uint8_t number; /* register or event */
    uint8_t value;  /* or argument */
} access;

/* One that may well be accepted by some controller; or by the one in these 88 bytes. */
access access_any(void);
access access_for(const uint8_t *chip);

/* Makes it, and checks what it leaves. */
perlovasta_reply access_make(lent *chip, access made);

/* So many bytes are lent, and made a fresh controller, where there is room for one. */
void access_fresh(lent *chip, size_t len, lent_place place);

#endif
