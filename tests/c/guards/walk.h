/* Events and bytes for a controller: mostly those that lead on, so that every turn is come to. */
#ifndef WALK_H
#define WALK_H

#include <stddef.h>
#include <stdint.h>

typedef struct {
    uint8_t event, argument;
} bus_event;

/* What may happen next to the controller in these 88 bytes; now and then any two bytes. */
bus_event walk_event(const uint8_t *chip);

/* A value for I2CCON; now and then any byte. */
uint8_t walk_control(void);

/* The script of a job that is done, as often spoiled in some way: so many bytes are written, at most this many. */
size_t walk_script(uint8_t *script, size_t most, uint8_t kind, uint8_t n);

#endif
