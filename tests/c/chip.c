/* A virtual chip from C, for as long as several jobs: enabled by hand, a read that is done, arbitration lost, not ready until another's STOP; jobs
   that stop on the way, and a reset after each. What is stated is checked in this order; it ends with 0 if all is so. */
#include <string.h>

#include "check.h"
#include "perlovasta.h"

enum { READER = 0x50, BYTES = 2 };

static uint8_t chip[PERLOVASTA_CHIP];
static uint8_t report[PERLOVASTA_REPORT];
static uint8_t handed[BYTES];

/* A read of two bytes on the chip; its answer. */
static uint8_t read_two(const uint8_t *script, size_t script_len) {
    uint8_t answer;
    PERLOVASTA_IF_DONE(read, answer, perlovasta_chip_read_job(chip, sizeof chip, READER, BYTES, script, script_len, report, sizeof report)) {
        memcpy(handed, read.bytes, read.n);
    }
    return answer;
}

static uint8_t refusal_of_write(uint8_t reg, uint8_t value) {
    return perlovasta_chip_write(chip, sizeof chip, reg, value).refusal;
}

static uint8_t refusal_of_event(uint8_t event, uint8_t argument) {
    return perlovasta_chip_event(chip, sizeof chip, event, argument).refusal;
}

/* The whole buffer is read, and the reply to the byte after it is a refusal. */
static void read_past_the_end(void) {
    perlovasta_reply reply = {0, 0};
    for (unsigned i = 0; i < PERLOVASTA_PLACES; i++) {
        reply = perlovasta_chip_read(chip, sizeof chip, PERLOVASTA_REGISTER_I2CDAT);
        CHECK(reply.refusal == PERLOVASTA_ACCEPTED);
    }
    CHECK(reply.value == 0);
    reply = perlovasta_chip_read(chip, sizeof chip, PERLOVASTA_REGISTER_I2CDAT);
    CHECK(reply.refusal == PERLOVASTA_REFUSAL_BUFFER_END && reply.value == 0);
}

/* A job on this script is answered so, after as many pairs, and no other begins until the chip is reset and enabled. */
static void stopped(const uint8_t *script, size_t script_len, uint8_t answer, uint64_t pairs) {
    static const uint8_t done[] = {1, 0, 6, 0, 7, 0x11, 7, 0x5C, 4, 0};
    CHECK(read_two(script, script_len) == answer && perlovasta_report_pairs(report) == pairs);
    CHECK(read_two(done, sizeof done) == PERLOVASTA_NOT_READY);
    CHECK(refusal_of_event(PERLOVASTA_EVENT_RESET_PIN, 0) == PERLOVASTA_ACCEPTED);
    CHECK(refusal_of_write(PERLOVASTA_REGISTER_I2CCON, 0x40) == PERLOVASTA_ACCEPTED);
    CHECK(read_two(done, sizeof done) == PERLOVASTA_DONE);
}

/* Answers 26 to 29: SCL held low; the script ends; own STOP before any data, a pair that is refused and not counted; the reset pin. */
static void stop_and_go(void) {
    static const uint8_t fault[] = {1, 0, 12, 0}, refused[] = {1, 0, 6, 0, 4, 0}, reset[] = {1, 0, 14, 0};
    stopped(fault, sizeof fault, PERLOVASTA_FAULT, 2);
    stopped(refused, 2, PERLOVASTA_UNFINISHED, 1);
    stopped(refused, sizeof refused, PERLOVASTA_REFUSED, 2);
    stopped(reset, sizeof reset, PERLOVASTA_RESET, 2);
}

int main(void) {
    static const uint8_t done[] = {1, 0, 6, 0, 7, 0x11, 7, 0x5C, 4, 0}, lost[] = {1, 0, 8, 0xA0};
    CHECK(perlovasta_chip_fresh(chip, sizeof chip - 1) == PERLOVASTA_REFUSAL_UNSOUND && chip[0] == 0);
    CHECK(refusal_of_event(PERLOVASTA_EVENT_RESET_PIN, 0) == PERLOVASTA_REFUSAL_UNSOUND);
    CHECK(read_two(done, sizeof done) == PERLOVASTA_NOT_READY);
    CHECK(perlovasta_chip_fresh(chip, sizeof chip) == PERLOVASTA_ACCEPTED && chip[0] == 0x50 && chip[1] == 0x43);
    CHECK(read_two(done, sizeof done) == PERLOVASTA_NOT_READY);
    CHECK(refusal_of_write(4, 0) == PERLOVASTA_REFUSAL_OUT_OF_RANGE);
    CHECK(refusal_of_write(PERLOVASTA_REGISTER_I2CCON, 0x40) == PERLOVASTA_ACCEPTED && chip[2] == PERLOVASTA_TURN_FREE);
    CHECK(read_two(done, sizeof done) == PERLOVASTA_DONE && handed[0] == 0x11 && handed[1] == 0x5C);
    CHECK(perlovasta_report_count(report) == BYTES && perlovasta_report_sent(report) == 1 && perlovasta_report_pairs(report) == 5);
    CHECK(read_two(done, sizeof done - 1) == PERLOVASTA_MALFORMED);
    CHECK(read_two(lost, sizeof lost) == PERLOVASTA_LOST && chip[4] == PERLOVASTA_REASON_ARBITRATION_LOST);
    CHECK(chip[2] == PERLOVASTA_TURN_HOST && chip[3] == 0x38);
    CHECK(read_two(done, sizeof done) == PERLOVASTA_NOT_READY);
    CHECK(refusal_of_event(PERLOVASTA_EVENT_OWN_STOP, 0) == PERLOVASTA_REFUSAL_UNEXPECTED);
    CHECK(refusal_of_event(PERLOVASTA_EVENT_ANOTHERS_STOP, 0) == PERLOVASTA_ACCEPTED);
    CHECK(read_two(done, sizeof done) == PERLOVASTA_DONE && chip[4] == PERLOVASTA_REASON_NACK);
    read_past_the_end();
    stop_and_go();
    return failures != 0;
}
