#include "walk.h"

#include "perlovasta.h"
#include "random.h"
#include "record.h"

/* Any event but rarely one that there is not, with an argument that fits as often as not. */
static bus_event any_event(void) {
    bus_event event = {random_byte(), random_byte()};
    if (!random_once_in(8))
        event.event = (uint8_t)(1 + random_below(PERLOVASTA_EVENT_RESET_PIN));
    if (random_once_in(2))
        event.argument = 0;
    return event;
}

/* One that leads on from the turn of these bytes, where one does. */
static bus_event leading_event(const uint8_t *chip) {
    switch (chip[AT_TURN]) {
    case PERLOVASTA_TURN_FREE: return (bus_event){chip[AT_STA] ? PERLOVASTA_EVENT_OWN_START : PERLOVASTA_EVENT_ANOTHERS_START, 0};
    case PERLOVASTA_TURN_BUSY: return (bus_event){PERLOVASTA_EVENT_ANOTHERS_STOP, 0};
    case PERLOVASTA_TURN_LISTEN: return (bus_event){PERLOVASTA_EVENT_ADDRESS_BYTE, random_once_in(2) ? 0xE0 : random_byte()};
    case PERLOVASTA_TURN_ADDRESS:
    case PERLOVASTA_TURN_SEND:
    case PERLOVASTA_TURN_SLAVE_SEND: return (bus_event){PERLOVASTA_EVENT_BYTE_OUT, random_once_in(16)};
    case PERLOVASTA_TURN_RECEIVE:
    case PERLOVASTA_TURN_SLAVE_RECEIVE:
    case PERLOVASTA_TURN_SLAVE_RECEIVE_GENERAL: return (bus_event){PERLOVASTA_EVENT_BYTE_IN, random_byte()};
    case PERLOVASTA_TURN_STOPPING: return (bus_event){PERLOVASTA_EVENT_OWN_STOP, 0};
    case PERLOVASTA_TURN_RESTARTING: return (bus_event){PERLOVASTA_EVENT_OWN_START, 0};
    default: return any_event();
    }
}

bus_event walk_event(const uint8_t *chip) {
    return random_once_in(4) ? any_event() : leading_event(chip);
}

uint8_t walk_control(void) {
    static const uint8_t often[] = {0x40, 0x60, 0x41, 0x50, 0xC0, 0xC1, 0xE0};
    return random_once_in(4) ? random_byte() : often[random_below(sizeof often)];
}

/* The pair k of a job that is done. */
static bus_event done_event(size_t k, uint8_t kind, uint8_t n) {
    if (k == 0)
        return (bus_event){PERLOVASTA_EVENT_OWN_START, 0};
    if (k == (size_t)n + 2)
        return (bus_event){PERLOVASTA_EVENT_OWN_STOP, 0};
    if (k == 1 || kind == PERLOVASTA_WRITE)
        return (bus_event){PERLOVASTA_EVENT_BYTE_OUT, 0};
    return (bus_event){PERLOVASTA_EVENT_BYTE_IN, random_byte()};
}

/* Puts these two events in, from the pair at this place on, as far as there is room. */
static void put(uint8_t *script, size_t len, size_t place, bus_event first, bus_event second) {
    uint8_t pairs[] = {first.event, first.argument, second.event, second.argument};
    size_t from = place & ~(size_t)1;
    for (size_t i = 0; i < sizeof pairs && from + i < len; i++)
        script[from + i] = pairs[i];
}

/* Cuts it anywhere, changes one byte, puts other events in, or a NACK and own STOP; its length then. */
static size_t spoil(uint8_t *script, size_t len) {
    static const bus_event nack = {PERLOVASTA_EVENT_BYTE_OUT, 1}, stop = {PERLOVASTA_EVENT_OWN_STOP, 0};
    size_t place = len == 0 ? 0 : random_below(random_once_in(4) && len > 4 ? 4 : len);
    switch (random_below(4)) {
    case 0: return place;
    case 1: script[place] = random_byte(); break;
    case 2: put(script, len, place, any_event(), any_event()); break;
    default: put(script, len, place, nack, stop); break;
    }
    return len;
}

size_t walk_script(uint8_t *script, size_t most, uint8_t kind, uint8_t n) {
    size_t len = 2 * ((size_t)n + 3);
    if (len > most)
        len = most & ~(size_t)1;
    for (size_t k = 0; k < len / 2; k++) {
        bus_event event = done_event(k, kind, n);
        script[2 * k] = event.event;
        script[2 * k + 1] = event.argument;
    }
    return random_once_in(2) ? len : spoil(script, len);
}
