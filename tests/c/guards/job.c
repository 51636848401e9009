#include "job.h"

#include <string.h>

#include "depth.h"
#include "expect.h"
#include "perlovasta.h"
#include "random.h"
#include "record.h"
#include "tally.h"
#include "walk.h"

enum { SCRIPT_MOST = 600 };

static uint8_t kind, address, n;
static lent data, destination, out, script, report;

void job_open(void) {
    lent_open(&data, false);
    lent_open(&destination, true);
    lent_open(&out, true);
    lent_open(&script, false);
    lent_open(&report, true);
}

/* Mostly one of so many numbers from the first on, at times an edge or any byte. */
static uint8_t random_number(uint8_t first, size_t numbers, const uint8_t *edges, size_t edges_len) {
    if (random_once_in(16))
        return random_byte();
    return random_once_in(5) ? edges[random_below(edges_len)] : (uint8_t)(first + random_below(numbers));
}
static uint8_t random_address(void) {
    static const uint8_t edges[] = {0x00, 0x07, 0x08, 0x50, 0x77, 0x78, 0x7F, 0x80, 0xFF};
    return random_number(0x08, 0x70, edges, sizeof edges);
}
static uint8_t random_n(void) {
    static const uint8_t edges[] = {0, 1, 2, 8, 67, 68, 69, 127, 128, 255};
    return random_number(1, PERLOVASTA_PLACES, edges, sizeof edges);
}

/* In place of this length. */
static size_t edge(size_t len) {
    (void)len;
    return random_edge();
}

/* A new job, and what is lent for it: mostly enough; now and then all of it of any length. */
static void make(lent_place place) {
    uint8_t pairs[SCRIPT_MOST];
    size_t (*length)(size_t) = random_once_in(8) ? edge : random_near;
    kind = random_once_in(16) ? random_byte() : (uint8_t)random_below(2);
    address = random_address();
    n = random_n();
    size_t script_len = walk_script(pairs, sizeof pairs, kind, n);
    lend(&data, length(kind == PERLOVASTA_WRITE ? n : 0), place);
    lend(&destination, length(kind == PERLOVASTA_READ ? n : 0), place);
    lend(&out, length(PERLOVASTA_OUT), place);
    lend_copy(&script, pairs, script_len, place);
    lend(&report, length(PERLOVASTA_REPORT), place);
    lent_note(&data);
    lent_note(&destination);
    lent_note(&out);
    lent_note(&script);
    lent_note(&report);
}

/* Answered 21, whatever the controller. */
static bool is_malformed(void) {
    bool lengths = (kind == PERLOVASTA_WRITE ? data.len : destination.len) >= n && out.len >= PERLOVASTA_OUT && script.len % 2 == 0;
    return kind > PERLOVASTA_READ || address < 0x08 || address > 0x77 || n < 1 || n > PERLOVASTA_PLACES || !lengths;
}

/* The bytes sent are the address byte and then the data, and no other byte of out is written. */
static void check_sent(size_t sent) {
    const uint8_t address_byte = (uint8_t)(2 * address + kind);
    EXPECT(sent <= (kind == PERLOVASTA_WRITE ? n + 1u : 1u) && lent_kept_from(&out, sent));
    EXPECT(sent == 0 || out.bytes[0] == address_byte);
    EXPECT(sent < 2 || memcmp(out.bytes + 1, data.bytes, sent - 1) == 0);
}

/* The bytes handed up are those that came in, in the pairs taken, and no other byte of the destination is written. */
static void check_handed(size_t handed, size_t pairs) {
    size_t came = 0;
    EXPECT(lent_kept_from(&destination, handed));
    for (size_t k = 0; k < pairs && came < handed; k++)
        if (script.bytes[2 * k] == PERLOVASTA_EVENT_BYTE_IN)
            EXPECT(destination.bytes[came++] == script.bytes[2 * k + 1]);
    EXPECT(came == handed);
}

/* What a report says that was written. */
static void check_report(uint8_t answer) {
    uint8_t refusal = perlovasta_report_refusal(report.bytes), count = perlovasta_report_count(report.bytes);
    EXPECT(perlovasta_report_answer(report.bytes) == answer && lent_kept_from(&report, PERLOVASTA_REPORT));
    EXPECT((refusal != 0) == (answer == PERLOVASTA_REFUSED) && refusal <= PERLOVASTA_REFUSAL_UNSOUND);
    EXPECT(perlovasta_report_pairs(report.bytes) <= script.len / 2);
    switch (answer) {
    case PERLOVASTA_DONE: EXPECT(count == n); break;
    case PERLOVASTA_DATA_NACKED: EXPECT(kind == PERLOVASTA_WRITE && count >= 1 && count <= n); break;
    default: EXPECT(count == 0); break;
    }
}

/* What the call has to leave, by its answer. */
static void check(uint8_t answer, bool ready) {
    bool short_report = report.len < PERLOVASTA_REPORT, malformed = short_report || is_malformed();
    EXPECT((answer == PERLOVASTA_MALFORMED) == malformed);
    EXPECT((answer == PERLOVASTA_NOT_READY) == (!malformed && !ready));
    EXPECT(answer == PERLOVASTA_DONE || (answer >= PERLOVASTA_MALFORMED && answer <= PERLOVASTA_RESET));
    EXPECT(lent_kept_from(&data, 0) && lent_kept_from(&script, 0));
    if (short_report) {
        EXPECT(lent_kept_from(&report, 0) && lent_kept_from(&out, 0) && lent_kept_from(&destination, 0));
        return;
    }
    check_report(answer);
    size_t sent = perlovasta_report_sent(report.bytes), pairs = (size_t)perlovasta_report_pairs(report.bytes);
    EXPECT((!malformed && ready) || (sent == 0 && pairs == 0));
    check_sent(sent);
    check_handed(answer == PERLOVASTA_DONE && kind == PERLOVASTA_READ ? n : 0, pairs);
}

void job_try(lent_place place) {
    make(place);
    expect_call("perlovasta_job");
    depth_paint();
    uint8_t answer = perlovasta_job(kind, address, n, data.bytes, data.len, destination.bytes, destination.len, out.bytes, out.len, script.bytes,
                                    script.len, report.bytes, report.len);
    depth_note(DEPTH_MODEL);
    tally_meet(MET_JOB, answer);
    check(answer, true);
}

void job_try_on(lent *chip, lent_place place) {
    make(place);
    lent_note(chip);
    bool ready = is_ready(chip->bytes, chip->len);
    expect_call("perlovasta_chip_job");
    depth_paint();
    uint8_t answer = perlovasta_chip_job(chip->bytes, chip->len, kind, address, n, data.bytes, data.len, destination.bytes, destination.len, out.bytes,
                                         out.len, script.bytes, script.len, report.bytes, report.len);
    depth_note(DEPTH_MODEL);
    tally_meet(MET_CHIP_JOB, answer);
    check(answer, ready);
    bool refused = answer == PERLOVASTA_MALFORMED || answer == PERLOVASTA_NOT_READY;
    EXPECT(lent_kept_from(chip, refused ? 0 : PERLOVASTA_CHIP));
    EXPECT(refused || (is_record(chip->bytes, chip->len) && is_sound(chip->bytes)));
}
