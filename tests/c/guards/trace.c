#include "trace.h"

#include "access.h"
#include "depth.h"
#include "expect.h"
#include "perlovasta.h"
#include "random.h"
#include "record.h"

enum { GROUPS_MOST = 30 };

static lent trace, log_bytes, chip;

void trace_open(void) {
    lent_open(&trace, false);
    lent_open(&log_bytes, true);
    lent_open(&chip, true);
}

/* So many groups, one now and then of any kind. */
static void make(size_t groups, lent_place place) {
    uint8_t bytes[PERLOVASTA_GROUP * GROUPS_MOST + 2];
    random_fill(bytes, sizeof bytes);
    for (size_t k = 0; k < groups; k++) {
        access made = access_any();
        bytes[3 * k] = random_once_in(200) ? random_byte() : (uint8_t)made.kind;
        bytes[3 * k + 1] = made.number;
        bytes[3 * k + 2] = made.value;
    }
    size_t cut = random_once_in(8) ? random_below(3) : 0;
    lend_copy(&trace, bytes, 3 * groups + cut, place);
    lend(&log_bytes, random_near(PERLOVASTA_ENTRY * groups), place);
    lent_note(&trace);
    lent_note(&log_bytes);
}

static bool is_run(void) {
    bool kinds = true;
    for (size_t k = 0; k < trace.len / 3; k++)
        kinds = kinds && trace.bytes[3 * k] <= ACCESS_EVENT;
    return kinds && trace.len % 3 == 0 && log_bytes.len / PERLOVASTA_ENTRY >= trace.len / 3;
}

/* The entry k of the log is what the chip says after the same access. */
static void check_entry(size_t k) {
    const uint8_t *entry = log_bytes.bytes + PERLOVASTA_ENTRY * k, *group = trace.bytes + 3 * k;
    access made = {(access_kind)group[0], group[1], group[2]};
    perlovasta_reply reply = access_make(&chip, made);
    perlovasta_reply control = perlovasta_chip_read(chip.bytes, chip.len, PERLOVASTA_REGISTER_I2CCON);
    uint8_t turn = chip.bytes[AT_TURN];
    if (turn == PERLOVASTA_TURN_HOST_AFTER_START && chip.bytes[AT_STATUS] != 0xA0)
        turn = PERLOVASTA_TURN_HOST;
    EXPECT(entry[0] == reply.refusal && entry[1] == reply.value);
    EXPECT(entry[2] == chip.bytes[AT_STATUS] && control.refusal == 0 && entry[3] == control.value);
    EXPECT(entry[4] == chip.bytes[AT_HAND] && entry[5] == chip.bytes[AT_MOVED] && entry[7] == turn);
    EXPECT(perlovasta_log_pointer(log_bytes.bytes, k) == chip.bytes[AT_POINTER]);
    EXPECT(perlovasta_log_reason(log_bytes.bytes, k) == chip.bytes[AT_REASON]);
    EXPECT(perlovasta_log_armed(log_bytes.bytes, k) == chip.bytes[AT_ARMED]);
}

void trace_try(lent_place place) {
    size_t groups = random_below(GROUPS_MOST + 1);
    make(groups, place);
    bool run = is_run();
    expect_call("perlovasta_trace");
    depth_paint();
    uint8_t answer = perlovasta_trace(trace.bytes, trace.len, log_bytes.bytes, log_bytes.len);
    depth_note(DEPTH_MODEL);
    EXPECT(answer == (run ? PERLOVASTA_DONE : PERLOVASTA_MALFORMED));
    EXPECT(lent_kept_from(&trace, 0) && lent_kept_from(&log_bytes, run ? PERLOVASTA_ENTRY * groups : 0));
    if (!run)
        return;
    access_fresh(&chip, PERLOVASTA_CHIP, place);
    for (size_t k = 0; k < groups; k++)
        check_entry(k);
}
