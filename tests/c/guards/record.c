#include "record.h"

#include <string.h>

#include "perlovasta.h"

enum { FLAGS = 6 };

static bool is_turn(uint8_t turn) {
    return turn <= PERLOVASTA_TURN_RESTARTING || turn == PERLOVASTA_TURN_HOST_AFTER_START || turn == PERLOVASTA_TURN_SLAVE_RECEIVE_GENERAL;
}

bool is_record(const uint8_t *chip, size_t len) {
    if (len < PERLOVASTA_CHIP)
        return false;
    bool flags = true;
    for (size_t i = 0; i < FLAGS; i++)
        flags = flags && chip[AT_FLAGS + i] <= 1;
    return chip[AT_MARK] == 0x50 && chip[AT_MARK + 1] == 0x43 && is_turn(chip[AT_TURN]) && chip[AT_REASON] <= PERLOVASTA_REASON_RESET && flags;
}

/* A status that the rules give to Host. */
static bool is_host_status(uint8_t status) {
    static const uint8_t none[] = {0x90, 0x98, 0xF0, 0xF8};
    return status % 8 == 0 && memchr(none, status, sizeof none) == NULL;
}

/* In a turn that moves data: MODE 0 and nothing moved, or MODE 1, moved below BC and BC at most 68. */
static bool is_move_sound(const uint8_t *chip) {
    uint8_t bc = chip[AT_I2CCOUNT] & 0x7F;
    return chip[AT_MODE] == 0 ? chip[AT_MOVED] == 0 : chip[AT_MOVED] < bc && bc <= PERLOVASTA_PLACES;
}

bool is_sound(const uint8_t *chip) {
    uint8_t turn = chip[AT_TURN];
    bool in_bounds = chip[AT_POINTER] <= 7 && chip[AT_HAND] <= PERLOVASTA_PLACES && chip[AT_MOVED] <= PERLOVASTA_PLACES && chip[AT_I2CMODE] <= 3;
    switch (turn) {
    case PERLOVASTA_TURN_HOST:
    case PERLOVASTA_TURN_HOST_AFTER_START: return in_bounds && is_host_status(chip[AT_STATUS]);
    case PERLOVASTA_TURN_SEND:
    case PERLOVASTA_TURN_RECEIVE:
    case PERLOVASTA_TURN_SLAVE_RECEIVE:
    case PERLOVASTA_TURN_SLAVE_RECEIVE_GENERAL:
    case PERLOVASTA_TURN_SLAVE_SEND: return in_bounds && is_move_sound(chip);
    default: return in_bounds;
    }
}

bool is_ready(const uint8_t *chip, size_t len) {
    return is_record(chip, len) && is_sound(chip) && chip[AT_TURN] == PERLOVASTA_TURN_FREE && chip[AT_ENSIO] == 1 && chip[AT_STA] == 0;
}
