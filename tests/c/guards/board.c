#include "board.h"

#include "expect.h"
#include "perlovasta.h"
#include "walk.h"

static uint8_t chip[PERLOVASTA_CHIP];

uint8_t board_do(perlovasta_step step) {
    if (chip[0] == 0)
        EXPECT(perlovasta_chip_fresh(chip, sizeof chip) == PERLOVASTA_ACCEPTED);
    uint8_t reg = perlovasta_register(step);
    bus_event event = walk_event(chip);
    perlovasta_reply reply = {PERLOVASTA_ACCEPTED, 0};
    switch (perlovasta_kind(step)) {
    case PERLOVASTA_READ_REGISTER: reply = perlovasta_chip_read(chip, sizeof chip, reg); break;
    case PERLOVASTA_WRITE_REGISTER: reply = perlovasta_chip_write(chip, sizeof chip, reg, perlovasta_value(step)); break;
    /* An event that is refused does not happen; the wait ends with nothing come. */
    case PERLOVASTA_WAIT: reply = perlovasta_chip_event(chip, sizeof chip, event.event, event.argument); break;
    default: break;
    }
    return reply.value;
}
