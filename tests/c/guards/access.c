#include "access.h"

#include <string.h>

#include "depth.h"
#include "expect.h"
#include "random.h"
#include "record.h"
#include "tally.h"
#include "walk.h"

access access_for(const uint8_t *chip) {
    bus_event event = walk_event(chip);
    uint8_t reg = random_once_in(16) ? random_byte() : (uint8_t)random_below(4);
    switch (random_below(4)) {
    case 0: return (access){ACCESS_READ, reg, random_byte()};
    case 1: return (access){ACCESS_WRITE, PERLOVASTA_REGISTER_I2CCON, walk_control()};
    case 2: return (access){ACCESS_WRITE, reg, reg == PERLOVASTA_REGISTER_I2CCON ? walk_control() : random_byte()};
    default: return (access){ACCESS_EVENT, event.event, event.argument};
    }
}

access access_any(void) {
    uint8_t chip[PERLOVASTA_CHIP] = {0};
    chip[AT_TURN] = (uint8_t)random_below(PERLOVASTA_TURN_RESTARTING + 1);
    chip[AT_STA] = (uint8_t)random_below(2);
    return access_for(chip);
}

/* Refused 1 or 2, or else 0, by its numbers alone. */
static uint8_t refusal_of_numbers(access made) {
    static const uint8_t with_argument[] = {PERLOVASTA_EVENT_ADDRESS_BYTE, PERLOVASTA_EVENT_BYTE_IN, PERLOVASTA_EVENT_LOST_IN_ADDRESS};
    if (made.kind != ACCESS_EVENT)
        return made.number > PERLOVASTA_REGISTER_I2CCON ? PERLOVASTA_REFUSAL_OUT_OF_RANGE : PERLOVASTA_ACCEPTED;
    if (made.number < PERLOVASTA_EVENT_OWN_START || made.number > PERLOVASTA_EVENT_RESET_PIN)
        return PERLOVASTA_REFUSAL_OUT_OF_RANGE;
    if (memchr(with_argument, made.number, sizeof with_argument) != NULL)
        return PERLOVASTA_ACCEPTED;
    return made.value > (made.number == PERLOVASTA_EVENT_BYTE_OUT) ? PERLOVASTA_REFUSAL_BAD_ARGUMENT : PERLOVASTA_ACCEPTED;
}

/* Refused 1, 2 or 10, or else 0, on these bytes. */
static uint8_t refusal_of_bytes(const lent *chip, access made) {
    bool resets = made.kind == ACCESS_EVENT && made.number == PERLOVASTA_EVENT_RESET_PIN;
    if (!is_record(chip->bytes, chip->len))
        return PERLOVASTA_REFUSAL_UNSOUND;
    uint8_t refusal = refusal_of_numbers(made);
    return refusal == PERLOVASTA_ACCEPTED && !resets && !is_sound(chip->bytes) ? PERLOVASTA_REFUSAL_UNSOUND : refusal;
}

static uint32_t call(lent *chip, access made) {
    static const char *const names[] = {"perlovasta_chip_read_packed", "perlovasta_chip_write_packed", "perlovasta_chip_event_packed"};
    uint32_t packed;
    expect_call(names[made.kind]);
    depth_paint();
    switch (made.kind) {
    case ACCESS_READ: packed = perlovasta_chip_read_packed(chip->bytes, chip->len, made.number); break;
    case ACCESS_WRITE: packed = perlovasta_chip_write_packed(chip->bytes, chip->len, made.number, made.value); break;
    default: packed = perlovasta_chip_event_packed(chip->bytes, chip->len, made.number, made.value); break;
    }
    depth_note(DEPTH_MODEL);
    return packed;
}

/* A read changes the hand place alone; it may set right the status that a turn without one had. */
static void check_read(lent *chip) {
    uint8_t after[PERLOVASTA_CHIP];
    memcpy(after, chip->bytes, sizeof after);
    after[AT_HAND] = lent_before(chip)[AT_HAND];
    after[AT_STATUS] = lent_before(chip)[AT_STATUS];
    EXPECT(memcmp(after, lent_before(chip), sizeof after) == 0);
}

perlovasta_reply access_make(lent *chip, access made) {
    uint8_t early = refusal_of_bytes(chip, made);
    lent_note(chip);
    uint32_t packed = call(chip, made);
    perlovasta_reply reply = perlovasta_reply_of(packed);
    tally_meet(MET_REFUSAL, reply.refusal);
    EXPECT(packed >> 16 == 0 && reply.refusal <= PERLOVASTA_REFUSAL_UNSOUND);
    if (reply.refusal != PERLOVASTA_ACCEPTED) {
        bool is_early = reply.refusal <= PERLOVASTA_REFUSAL_BAD_ARGUMENT || reply.refusal == PERLOVASTA_REFUSAL_UNSOUND;
        EXPECT(is_early ? reply.refusal == early : early == PERLOVASTA_ACCEPTED);
        EXPECT(reply.value == 0 && lent_kept_from(chip, 0));
        return reply;
    }
    EXPECT(early == PERLOVASTA_ACCEPTED && lent_kept_from(chip, PERLOVASTA_CHIP));
    EXPECT(is_record(chip->bytes, chip->len) && is_sound(chip->bytes));
    tally_meet(MET_TURN, chip->bytes[AT_TURN]);
    if (made.kind == ACCESS_READ)
        check_read(chip);
    return reply;
}

void access_fresh(lent *chip, size_t len, lent_place place) {
    static const uint8_t head[AT_BUFFER] = {0x50, 0x43, 0, 0xF8, 0, 0, 0, 0, 0, 0, 0, 0, 0, 0, 0x01, 0xE0, 0x9D, 0x86, 0xFF, 0x00};
    static const uint8_t zeros[PERLOVASTA_PLACES];
    lend(chip, len, place);
    lent_note(chip);
    expect_call("perlovasta_chip_fresh");
    depth_paint();
    uint8_t refusal = perlovasta_chip_fresh(chip->bytes, chip->len);
    depth_note(DEPTH_MODEL);
    EXPECT(refusal == (len < PERLOVASTA_CHIP ? PERLOVASTA_REFUSAL_UNSOUND : PERLOVASTA_ACCEPTED));
    EXPECT(lent_kept_from(chip, refusal == PERLOVASTA_ACCEPTED ? PERLOVASTA_CHIP : 0));
    EXPECT(refusal != PERLOVASTA_ACCEPTED || (memcmp(chip->bytes, head, sizeof head) == 0 && memcmp(chip->bytes + AT_BUFFER, zeros, sizeof zeros) == 0));
}
