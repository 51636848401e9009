#include "port.h"

#include <string.h>

#include "board.h"
#include "depth.h"
#include "expect.h"
#include "perlovasta_dock.h"
#include "random.h"
#include "tally.h"

static lent state, data, destination;
static uint8_t held[PERLOVASTA_STATE]; /* the one that goes on */
static perlovasta_step last = PERLOVASTA_OVER;

void port_open(void) {
    lent_open(&state, true);
    lent_open(&data, false);
    lent_open(&destination, true);
}

static bool is_over(perlovasta_step step, uint8_t answer) {
    return perlovasta_kind(step) == PERLOVASTA_OVER && perlovasta_answer(step) == answer;
}

/* A step that there is; 21 where the state is too short or the call is malformed, and nothing written but a state of 148 bytes. */
static void check(perlovasta_step step, bool malformed) {
    bool too_short = state.len < PERLOVASTA_STATE;
    uint8_t reg = perlovasta_register(step);
    EXPECT(perlovasta_kind(step) >= PERLOVASTA_WRITE_REGISTER && perlovasta_kind(step) <= PERLOVASTA_OVER);
    EXPECT(perlovasta_kind(step) > PERLOVASTA_READ_REGISTER || reg <= PERLOVASTA_REGISTER_I2CCON);
    EXPECT(lent_kept_from(&state, too_short ? 0 : PERLOVASTA_STATE) && lent_kept_from(&data, 0));
    EXPECT(!(too_short || malformed) || is_over(step, PERLOVASTA_MALFORMED));
}

static perlovasta_step start(lent_place place) {
    uint8_t kind = random_once_in(16) ? random_byte() : (uint8_t)random_below(2);
    uint8_t address = random_once_in(8) ? random_byte() : 0x50;
    uint8_t n = random_once_in(8) ? random_byte() : (uint8_t)(1 + random_below(PERLOVASTA_PLACES));
    lend(&data, random_near(kind == PERLOVASTA_WRITE ? n : 0), place);
    lent_note(&data);
    bool malformed = kind > PERLOVASTA_READ || address < 0x08 || address > 0x77 || n < 1 || n > PERLOVASTA_PLACES ||
                     (kind == PERLOVASTA_WRITE && data.len < n);
    expect_call("perlovasta_start");
    depth_paint();
    perlovasta_step step = perlovasta_start(state.bytes, state.len, kind, address, n, data.bytes, data.len);
    depth_note(DEPTH_PORT);
    check(step, malformed);
    EXPECT(malformed || state.len < PERLOVASTA_STATE || !is_over(step, PERLOVASTA_MALFORMED));
    return step;
}

static bool are_settings(void) {
    bool all = data.len % 2 == 0 && data.len <= PERLOVASTA_SETTINGS;
    for (size_t i = 0; i + 1 < data.len; i += 2)
        all = all && data.bytes[i] <= PERLOVASTA_POINTER_I2CMODE && data.bytes[i] != PERLOVASTA_POINTER_I2CPRESET;
    return all;
}

static perlovasta_step recover(lent_place place) {
    uint8_t settings[PERLOVASTA_SETTINGS + 2];
    random_fill(settings, sizeof settings);
    for (size_t i = 0; i < sizeof settings; i += 2)
        settings[i] = (uint8_t)random_below(random_once_in(8) ? 256 : PERLOVASTA_POINTER_I2CPRESET);
    lend_copy(&data, settings, random_below(random_once_in(2) ? 3 : sizeof settings + 1), place);
    lent_note(&data);
    expect_call("perlovasta_recover");
    depth_paint();
    perlovasta_step step = perlovasta_recover(state.bytes, state.len, data.bytes, data.len);
    depth_note(DEPTH_PORT);
    check(step, !are_settings());
    EXPECT(!are_settings() || state.len < PERLOVASTA_STATE || perlovasta_kind(step) == PERLOVASTA_WRITE_REGISTER);
    return step;
}

static perlovasta_step give_up(void) {
    expect_call("perlovasta_give_up");
    depth_paint();
    perlovasta_step step = perlovasta_give_up(state.bytes, state.len);
    depth_note(DEPTH_PORT);
    check(step, false);
    EXPECT(state.len < PERLOVASTA_STATE || is_over(step, PERLOVASTA_UNFINISHED));
    return step;
}

static perlovasta_step next(uint8_t value) {
    expect_call("perlovasta_next");
    depth_paint();
    perlovasta_step step = perlovasta_next(state.bytes, state.len, value);
    depth_note(DEPTH_PORT);
    check(step, false);
    return step;
}

/* Bytes that were taken: as many as the end of the job says, and no other byte is written. They are gone from the state then, and can't be taken again. A
   state that no call has written may say any number; its bytes are 68 at most. */
static void check_taken(perlovasta_step end, bool any) {
    static const uint8_t none[PERLOVASTA_PLACES];
    size_t n = any ? PERLOVASTA_PLACES : perlovasta_count(end);
    EXPECT(is_over(end, PERLOVASTA_DONE));
    EXPECT(n >= 1 && n <= PERLOVASTA_PLACES);
    EXPECT(lent_kept_from(&destination, n < destination.len ? n : destination.len));
    EXPECT(lent_kept_from(&state, PERLOVASTA_STATE));
    EXPECT(memcmp(state.bytes + PERLOVASTA_STATE - sizeof none, none, sizeof none) == 0);
    lent_note(&destination);
    EXPECT(perlovasta_take(state.bytes, state.len, destination.bytes, destination.len) == PERLOVASTA_MALFORMED);
    EXPECT(lent_kept_from(&destination, 0));
}

/* What is taken now, from the state that goes on or from any; what its end is, where it is over, the next step of a copy made before says. */
static void take(lent_place place, bool any) {
    uint8_t copy[PERLOVASTA_STATE] = {0};
    if (state.len >= sizeof copy)
        memcpy(copy, state.bytes, sizeof copy);
    perlovasta_step end = perlovasta_next(copy, sizeof copy, 0);
    lend(&destination, random_near(any ? PERLOVASTA_PLACES : perlovasta_count(last)), place);
    lent_note(&destination);
    expect_call("perlovasta_take");
    depth_paint();
    uint8_t answer = perlovasta_take(state.bytes, state.len, destination.bytes, destination.len);
    depth_note(DEPTH_PORT);
    tally_meet(MET_TAKE, answer);
    EXPECT(answer == PERLOVASTA_DONE || (lent_kept_from(&destination, 0) && lent_kept_from(&state, 0)));
    if (state.len < PERLOVASTA_STATE) {
        EXPECT(answer == PERLOVASTA_MALFORMED);
        return;
    }
    if (answer == PERLOVASTA_DONE)
        check_taken(end, any);
    else
        EXPECT(answer == PERLOVASTA_UNFINISHED || answer == PERLOVASTA_MALFORMED || is_over(end, answer));
}

/* Any bytes, with the mark of a state or not, or the state with some bits the other way; some more behind it, or too few. */
static void lend_any(lent_place place) {
    uint8_t bytes[2 * PERLOVASTA_STATE];
    random_fill(bytes, sizeof bytes);
    if (random_once_in(2)) {
        bytes[0] = 0x50;
        bytes[1] = 0x76;
    }
    if (random_once_in(2))
        memcpy(bytes, held, sizeof held);
    for (size_t flips = random_below(4); flips > 0; flips--)
        bytes[random_below(random_once_in(2) ? 16 : PERLOVASTA_STATE)] ^= (uint8_t)(1u << random_below(8));
    lend_copy(&state, bytes, random_near(PERLOVASTA_STATE), place);
    lent_note(&state);
}

/* The state that goes on: begun anew where it is over, else one step on with what its board gives. */
static void go_on(lent_place place) {
    lend_copy(&state, held, sizeof held, place);
    lent_note(&state);
    if (random_once_in(300))
        last = give_up();
    else if (perlovasta_kind(last) != PERLOVASTA_OVER)
        last = next(board_do(last));
    else
        last = random_once_in(4) || perlovasta_answer(last) >= PERLOVASTA_NOT_READY ? recover(place) : start(place);
    memcpy(held, state.bytes, sizeof held);
    if (perlovasta_kind(last) == PERLOVASTA_OVER) {
        tally_meet(MET_PORT, perlovasta_answer(last));
        lent_note(&state);
        take(place, false);
    }
}

void port_try(lent_place place) {
    go_on(place);
    lend_any(place);
    switch (random_below(5)) {
    case 0: start(place); break;
    case 1: recover(place); break;
    case 2: next(random_byte()); break;
    case 3: give_up(); break;
    default: take(place, true); break;
    }
}
