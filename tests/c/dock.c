/* A read of three bytes through the port, with a chip whose answers are listed; and that nothing is handed up where it is not done. Prints each step. */
#include <stdio.h>
#include <string.h>

#include "perlovasta_dock.h"

static uint8_t state[PERLOVASTA_STATE];
static const uint8_t none[1] = {0};

static void show(perlovasta_step step) {
    switch (perlovasta_kind(step)) {
    case PERLOVASTA_WRITE_REGISTER:
        printf("write %u %02X\n", perlovasta_register(step), perlovasta_value(step));
        break;
    case PERLOVASTA_READ_REGISTER:
        printf("read %u\n", perlovasta_register(step));
        break;
    case PERLOVASTA_WAIT:
        printf("wait\n");
        break;
    case PERLOVASTA_PAUSE:
        printf("pause\n");
        break;
    default:
        printf("over %u count %u\n", perlovasta_answer(step), perlovasta_count(step));
    }
}

/* From this step on, with these values read, to the end. */
static void run(perlovasta_step step, const uint8_t *values) {
    show(step);
    while (perlovasta_kind(step) != PERLOVASTA_OVER) {
        uint8_t value = 0;
        if (perlovasta_kind(step) == PERLOVASTA_READ_REGISTER) {
            value = *values++;
        }
        step = perlovasta_next(state, sizeof state, value);
        show(step);
    }
}

static void take(void) {
    uint8_t badge[4];
    memset(badge, 0xEE, sizeof badge);
    unsigned why = perlovasta_take(state, sizeof state, badge, sizeof badge);
    printf("take %u: %02X %02X %02X %02X\n", why, badge[0], badge[1], badge[2], badge[3]);
}

int main(void) {
    /* I2CCON and I2CSTA in turn, then the three bytes, then I2CCON three times: SI 1 still, STO 1, and STO 0. In the second list
       the chip was reset amid the reads. */
    static const uint8_t answered[] = {0x40, 0xF8, 0x68, 0x08, 0x48, 0x40, 0x49, 0x58, 0x11, 0x22, 0x33, 0x49, 0x50, 0x40};
    static const uint8_t reset[] = {0x40, 0xF8, 0x68, 0x08, 0x48, 0x40, 0x49, 0x58, 0x11, 0x11, 0x22, 0x00};
    static const uint8_t silent[] = {0x40, 0xF8, 0x68, 0x08, 0x48, 0x48, 0x40};
    static const uint8_t settings[] = {0x04, 0xFF};

    run(perlovasta_start(state, sizeof state, PERLOVASTA_READ, 0x50, 3, none, 0), none);
    run(perlovasta_recover(state, sizeof state, settings, sizeof settings), none);
    run(perlovasta_start(state, sizeof state, PERLOVASTA_READ, 0x50, 3, none, 0), answered);
    take();
    take();
    run(perlovasta_start(state, sizeof state, PERLOVASTA_READ, 0x50, 3, none, 0), reset);
    take();
    run(perlovasta_start(state, sizeof state, PERLOVASTA_READ, 0x50, 3, none, 0), silent);
    take();
    run(perlovasta_start(state, sizeof state, PERLOVASTA_READ, 0x50, 0, none, 0), none);
    take();
    show(perlovasta_give_up(state, sizeof state));
    run(perlovasta_start(state, sizeof state, PERLOVASTA_READ, 0x50, 3, none, 0), none);
    show(perlovasta_next(state, sizeof state - 1, 0));
    return 0;
}
