/* usage: dock SCRIPT     reads a badge of 8 bytes from the reader at 50h, as a dock does
 * The loop of a dock over the port, with a virtual chip in place of the board's. SCRIPT is a file of what the bus does, pairs of bytes
 * (event, argument), 4096 bytes at most; one pair happens at each wait. Prints and ends as badge does. */
#include "badge_io.h"
#include "perlovasta.h"
#include "perlovasta_dock.h"

static uint8_t state[PERLOVASTA_STATE]; /* zeros at first; from then on the port's alone */
static uint8_t chip[PERLOVASTA_CHIP];
static bus_script bus;
static size_t happened; /* bytes of the script */
static uint8_t refusal; /* of the virtual chip; a chip on a board refuses nothing */

/* A board has an access_chip and a wait_for_chip of its own, and no virtual chip: chip, bus, happened and refusal go, with what main does with them.
 * access_chip makes the register access that the step asks for, and gives the value read: on a board, on the wires that lead to the chip. */
static uint8_t access_chip(perlovasta_step step) {
    uint8_t reg = perlovasta_register(step), value = perlovasta_value(step);
    perlovasta_reply reply = perlovasta_kind(step) == PERLOVASTA_READ_REGISTER ? perlovasta_chip_read(chip, sizeof chip, reg)
                                                                               : perlovasta_chip_write(chip, sizeof chip, reg, value);
    refusal = reply.refusal;
    return reply.value;
}

/* wait_for_chip says whether there is time left. A board waits for the chip's interrupt, 1 ms at most, or 550 us for a pause, and looks at its
 * clock. Here the next pair of the script happens, and time is up when there is none, or when the chip refuses it. */
static bool wait_for_chip(perlovasta_step step) {
    if (perlovasta_kind(step) == PERLOVASTA_PAUSE)
        return true;
    if (bus.length - happened < 2)
        return false;
    refusal = perlovasta_chip_event(chip, sizeof chip, bus.bytes[happened], bus.bytes[happened + 1]).refusal;
    happened += 2;
    return refusal == PERLOVASTA_ACCEPTED;
}

/* Does what the port asks for, from this step to the end. */
PERLOVASTA_LOOK static perlovasta_step run(perlovasta_step step) {
    while (perlovasta_kind(step) != PERLOVASTA_OVER) {
        uint8_t value = 0;
        bool in_time = true;
        if (perlovasta_kind(step) == PERLOVASTA_WAIT || perlovasta_kind(step) == PERLOVASTA_PAUSE)
            in_time = wait_for_chip(step);
        else
            value = access_chip(step);
        step = in_time ? perlovasta_next(state, sizeof state, value) : perlovasta_give_up(state, sizeof state);
    }
    return step;
}

int main(int argc, char **argv) {
    const uint8_t none = 0; /* no settings and no data, but the pointer must not be NULL */
    uint8_t answer;
    if (argc != 2) {
        fputs("usage: dock SCRIPT\n", stderr);
        return ENDED_NOT_TOLD;
    }
    if (!read_script(&bus, argv[1]) || perlovasta_chip_fresh(chip, sizeof chip) != PERLOVASTA_ACCEPTED)
        return ENDED_NOT_TOLD;

    /* A dock recovers its chip once after power-up, then after 26, 27, 29 and a 22 that does not end. */
    if (perlovasta_answer(run(perlovasta_recover(state, sizeof state, &none, 0))) != PERLOVASTA_DONE)
        return ENDED_NOT_TOLD;
    perlovasta_step over = run(perlovasta_start(state, sizeof state, PERLOVASTA_READ, READER, BADGE, &none, 0));
    PERLOVASTA_IF_DONE(badge, answer, perlovasta_take_read(state, sizeof state, over)) {
        print_badge(&badge);
    }
    if (answer == PERLOVASTA_UNFINISHED && refusal != PERLOVASTA_ACCEPTED)
        answer = PERLOVASTA_REFUSED; /* given up for this reason */
    if (answer != PERLOVASTA_DONE)
        print_why_not(answer, refusal);
    return ending(answer);
}
