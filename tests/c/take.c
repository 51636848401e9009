/* The bytes of a read are taken by the step with which it ended, once, and by no other step that says another length. Ends with 0 if all is as stated. */
#include <string.h>

#include "check.h"
#include "perlovasta_dock.h"

static uint8_t state[PERLOVASTA_STATE];
static const uint8_t none[1] = {0};

/* Does what is asked for, with a chip that answers what a read meets; the bytes that are read are 11h, 12h and so on. */
static perlovasta_step run(perlovasta_step step) {
    static const uint8_t looks[] = {0x40, 0xF8, 0x68, 0x08, 0x48, 0x40, 0x49, 0x58, 0x49, 0x40};
    size_t looked = 0;
    uint8_t byte = 0x11;
    while (perlovasta_kind(step) != PERLOVASTA_OVER && looked < sizeof looks) {
        uint8_t value = 0;
        if (perlovasta_kind(step) == PERLOVASTA_READ_REGISTER)
            value = perlovasta_register(step) == PERLOVASTA_REGISTER_I2CDAT ? byte++ : looks[looked++];
        step = perlovasta_next(state, sizeof state, value);
    }
    return step;
}

/* The state holds the bytes of a finished read of n; its last step. */
static perlovasta_step finish(uint8_t n) {
    perlovasta_step step = run(perlovasta_recover(state, sizeof state, none, 0));
    CHECK(perlovasta_answer(step) == PERLOVASTA_DONE);
    step = run(perlovasta_start(state, sizeof state, PERLOVASTA_READ, 0x50, n, none, 0));
    CHECK(perlovasta_answer(step) == PERLOVASTA_DONE && perlovasta_count(step) == n);
    return step;
}

/* What is taken by this step is answered so: for 0 it is n bytes and zeros behind them, else nothing but zeros. */
static void expect(perlovasta_step step, uint8_t answer, uint8_t n) {
    uint8_t bytes[PERLOVASTA_PLACES] = {0};
    for (uint8_t i = 0; i < n; i++)
        bytes[i] = (uint8_t)(0x11 + i);
    perlovasta_read_result read = perlovasta_take_read(state, sizeof state, step);
    CHECK(read.answer == answer && read.n == n && memcmp(read.bytes, bytes, sizeof bytes) == 0);
}

int main(void) {
    perlovasta_step of_four = finish(4), of_one = finish(1), of_two = finish(2);
    /* A read of two is no read of four, and is gone then. */
    expect(of_four, PERLOVASTA_MALFORMED, 0);
    expect(of_two, PERLOVASTA_MALFORMED, 0);
    /* Nor is it one of one byte, and stays. */
    of_two = finish(2);
    expect(of_one, PERLOVASTA_MALFORMED, 0);
    expect(of_two, PERLOVASTA_DONE, 2);
    expect(of_two, PERLOVASTA_MALFORMED, 0);
    expect(finish(1), PERLOVASTA_DONE, 1);
    expect(finish(PERLOVASTA_PLACES), PERLOVASTA_DONE, PERLOVASTA_PLACES);
    /* What is given up can't be taken, nor what is under way. */
    of_four = finish(4);
    CHECK(perlovasta_answer(perlovasta_give_up(state, sizeof state)) == PERLOVASTA_UNFINISHED);
    expect(of_four, PERLOVASTA_UNFINISHED, 0);
    expect(perlovasta_recover(state, sizeof state, none, 0), PERLOVASTA_UNFINISHED, 0);
    expect(of_four, PERLOVASTA_UNFINISHED, 0);
    return failures != 0;
}
