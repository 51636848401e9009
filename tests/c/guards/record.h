/* What perlovasta.h and document 01 say of a controller in bytes: whether they are a record, whether it is sound, and whether a job can begin. */
#ifndef RECORD_H
#define RECORD_H

#include <stdbool.h>
#include <stddef.h>
#include <stdint.h>

/* Places of the bytes. */
enum {
    AT_MARK = 0,
    AT_TURN = 2,
    AT_STATUS = 3,
    AT_REASON = 4,
    AT_FLAGS = 5,
    AT_ENSIO = 6,
    AT_STA = 7,
    AT_MODE = 9,
    AT_ARMED = 10,
    AT_HAND = 11,
    AT_MOVED = 12,
    AT_POINTER = 13,
    AT_I2CCOUNT = 14,
    AT_I2CMODE = 19,
    AT_BUFFER = 20
};

bool is_record(const uint8_t *chip, size_t len);
/* Of a record. */
bool is_sound(const uint8_t *chip);
bool is_ready(const uint8_t *chip, size_t len);

#endif
