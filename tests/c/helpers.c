/* What the headers' own functions make of numbers and bytes. Ends with 0 if all is as stated. */
#include <string.h>

#include "check.h"
#include "perlovasta.h"
#include "perlovasta_dock.h"

/* Each answer has words of its own, and every other number those of no answer. */
static void words(void) {
    for (unsigned i = 0; i < 256; i++) {
        const char *said = perlovasta_words((uint8_t)i);
        int named = i == 0 || (i >= 21 && i <= 29);
        CHECK((strcmp(said, perlovasta_words(255)) != 0) == named);
        CHECK(!named || i == 29 || strcmp(said, perlovasta_words((uint8_t)(i + 1))) != 0);
    }
    CHECK(strcmp(perlovasta_words(PERLOVASTA_UNFINISHED), "the script ended first") == 0);
    CHECK(strcmp(perlovasta_port_words(PERLOVASTA_UNFINISHED), "given up") == 0);
    CHECK(strcmp(perlovasta_port_words(PERLOVASTA_FAULT), "bus fault") == 0);
    CHECK(strstr(perlovasta_port_words(PERLOVASTA_MALFORMED), "no bytes to take") != NULL);
}

/* What is not over has no answer yet, and nothing that could be taken for done. What is no step has kind 0. */
static void steps(void) {
    for (unsigned kind = 0; kind < 256; kind++) {
        perlovasta_step step = kind | 24u << 8 | 5u << 16;
        int over = kind == PERLOVASTA_OVER;
        CHECK(perlovasta_kind(step) == (kind <= PERLOVASTA_OVER ? kind : 0));
        CHECK(perlovasta_answer(step) == (over ? PERLOVASTA_DATA_NACKED : PERLOVASTA_UNFINISHED));
        CHECK(perlovasta_count(step) == (over ? 5 : 0));
        CHECK((perlovasta_answer(kind) == PERLOVASTA_DONE) == over);
    }
    CHECK(perlovasta_register(0x00880201) == 2 && perlovasta_value(0x00880201) == 0x88);
}

static void reports_and_replies(void) {
    static const uint8_t report[] = {28, 8, 0, 1, 1, 2, 3, 4, 5, 6, 7, 8};
    perlovasta_reply reply = perlovasta_reply_of(0x5C07);
    CHECK(perlovasta_report_answer(report) == PERLOVASTA_REFUSED);
    CHECK(perlovasta_report_refusal(report) == PERLOVASTA_REFUSAL_UNEXPECTED);
    CHECK(perlovasta_report_count(report) == 0 && perlovasta_report_sent(report) == 1);
    CHECK(perlovasta_report_pairs(report) == 0x0807060504030201);
    CHECK(reply.refusal == PERLOVASTA_REFUSAL_BUFFER_END && reply.value == 0x5C);
}

/* How often the block is run for a read of this answer, left by continue. */
static unsigned times_run(uint8_t answer, uint8_t n) {
    static const perlovasta_read_result bytes = {0, 0, {0x11}};
    unsigned times = 0;
    uint8_t stored = 255;
    PERLOVASTA_IF_DONE(read, stored, perlovasta_ended(bytes, answer, n)) {
        times++;
        CHECK(read.n == n && read.bytes[0] == 0x11);
        continue;
    }
    CHECK(stored == answer);
    return times;
}

/* What is stored after a block that finds its bytes wrong: what the block has stored. */
static uint8_t stored_by_block(void) {
    static const perlovasta_read_result bytes = {0, 0, {0x11}};
    uint8_t stored = 255;
    PERLOVASTA_IF_DONE(read, stored, perlovasta_ended(bytes, PERLOVASTA_DONE, 1)) {
        if (stored == PERLOVASTA_DONE && read.bytes[0] != 0)
            stored = PERLOVASTA_FAULT;
    }
    return stored;
}

/* What is answered when the bytes of a read are asked for at this step, in a state that holds none. */
static uint8_t taken_at(perlovasta_step step) {
    static uint8_t state[PERLOVASTA_STATE] = {0};
    uint8_t answer;
    PERLOVASTA_IF_DONE(read, answer, perlovasta_take_read(state, sizeof state, step)) {
        CHECK(read.n == 0);
    }
    return answer;
}

#define TEXT(number) #number
#define VERSION(major, minor, patch) TEXT(major) "." TEXT(minor) "." TEXT(patch)

int main(void) {
    words();
    steps();
    reports_and_replies();
    CHECK(times_run(PERLOVASTA_DONE, 1) == 1 && times_run(PERLOVASTA_DONE, 68) == 1);
    CHECK(times_run(PERLOVASTA_ADDRESS_NACKED, 8) == 0 && times_run(PERLOVASTA_MALFORMED, 8) == 0);
    CHECK(stored_by_block() == PERLOVASTA_FAULT);
    CHECK(taken_at(PERLOVASTA_WAIT) == PERLOVASTA_UNFINISHED);
    CHECK(taken_at(PERLOVASTA_OVER | 23u << 8) == PERLOVASTA_ADDRESS_NACKED);
    CHECK(taken_at(PERLOVASTA_OVER) == PERLOVASTA_MALFORMED && taken_at(PERLOVASTA_OVER | 69u << 16) == PERLOVASTA_MALFORMED);
    CHECK(taken_at(PERLOVASTA_OVER | 8u << 16) == PERLOVASTA_NOT_READY);
    CHECK(strcmp(PERLOVASTA_VERSION, VERSION(PERLOVASTA_VERSION_MAJOR, PERLOVASTA_VERSION_MINOR, PERLOVASTA_VERSION_PATCH)) == 0);
    return failures != 0;
}
