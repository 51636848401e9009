#include "chip.h"

#include <string.h>

#include "access.h"
#include "job.h"
#include "random.h"
#include "record.h"

static lent chip;
static uint8_t held[PERLOVASTA_CHIP]; /* the one that goes on */

void chip_open(void) {
    lent_open(&chip, true);
}

/* A record of any numbers that name something, and of other bytes that are small, so that it is sound now and then. */
static void make_record(uint8_t *bytes) {
    static const uint8_t turns[] = {0, 1, 2, 3, 4, 5, 6, 7, 8, 9, 10, 11, 17, 24};
    random_fill(bytes, PERLOVASTA_CHIP);
    bytes[AT_MARK] = 0x50;
    bytes[AT_MARK + 1] = 0x43;
    bytes[AT_TURN] = turns[random_below(sizeof turns)];
    bytes[AT_STATUS] &= 0xF8;
    bytes[AT_REASON] %= 7;
    for (size_t i = AT_FLAGS; i <= AT_ARMED; i++)
        bytes[i] &= 1;
    for (size_t i = AT_HAND; i <= AT_I2CMODE; i++)
        bytes[i] = (uint8_t)random_below(random_once_in(4) ? 80 : 4);
    if (random_once_in(8))
        bytes[AT_HAND] = PERLOVASTA_PLACES;
}

/* Any bytes; a record of any numbers; or the chip with some bits the other way. */
static void make_any(uint8_t *bytes) {
    switch (random_below(3)) {
    case 0: random_fill(bytes, PERLOVASTA_CHIP); return;
    case 1: make_record(bytes); return;
    default: break;
    }
    memcpy(bytes, held, PERLOVASTA_CHIP);
    for (size_t flips = 1 + random_below(3); flips > 0; flips--)
        bytes[random_below(random_once_in(2) ? AT_BUFFER : PERLOVASTA_CHIP)] ^= (uint8_t)(1u << random_below(8));
}

/* Lends these 88 bytes, and some more behind them, or too few. */
static void lend_chip(const uint8_t *content, lent_place place) {
    uint8_t bytes[2 * PERLOVASTA_CHIP];
    random_fill(bytes, sizeof bytes);
    memcpy(bytes, content, PERLOVASTA_CHIP);
    lend_copy(&chip, bytes, random_near(PERLOVASTA_CHIP), place);
}

/* A job, or an access, on the chip that goes on. It is enabled now and then, and at times fresh. */
static void go_on(lent_place place) {
    if (held[AT_MARK] == 0 || random_once_in(500)) {
        access_fresh(&chip, PERLOVASTA_CHIP, place);
    } else {
        lend_copy(&chip, held, PERLOVASTA_CHIP, place);
    }
    if (random_once_in(8))
        job_try_on(&chip, place);
    else
        access_make(&chip, random_once_in(32) ? (access){ACCESS_EVENT, PERLOVASTA_EVENT_RESET_PIN, 0} : access_for(held));
    memcpy(held, chip.bytes, sizeof held);
}

/* A job on a chip that is ready for it. */
static void run_job(lent_place place) {
    access_fresh(&chip, PERLOVASTA_CHIP, place);
    access_make(&chip, (access){ACCESS_WRITE, PERLOVASTA_REGISTER_I2CCON, 0x40});
    job_try_on(&chip, place);
}

void chip_try(lent_place place) {
    uint8_t bytes[PERLOVASTA_CHIP];
    go_on(place);
    run_job(place);
    access_fresh(&chip, random_near(PERLOVASTA_CHIP), place);
    make_any(bytes);
    lend_chip(random_once_in(4) ? held : bytes, place);
    if (random_once_in(4))
        job_try_on(&chip, place);
    else
        access_make(&chip, access_for(bytes));
}
