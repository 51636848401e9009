/*
 * Perlovasta: a model of the PCA9665 I2C controller, and a driver that runs one
 * read or write job against it. libperlovasta.a has them.
 *
 * A job and a trace can be run on a fresh controller, which is gone after the
 * call; or on a virtual chip, a controller in bytes that the caller lends and
 * keeps for as long as it likes.
 *
 * No byte is touched but those said here. perlovasta_terms.h says what both
 * libraries want of a caller, and which flags to compile with. This one calls
 * nothing outside itself but memcpy, and takes at most PERLOVASTA_STACK bytes of
 * stack.
 */
#ifndef PERLOVASTA_H
#define PERLOVASTA_H

#include "perlovasta_terms.h"

/* Bytes at most, of one call. Up to 512 of them are for those functions that this
 * header has compiled into the caller. */
#define PERLOVASTA_STACK 3072u
#define PERLOVASTA_OUT 69u     /* least length of out: address byte and data */
#define PERLOVASTA_REPORT 12u  /* least length of report */
#define PERLOVASTA_GROUP 3u    /* bytes of a trace for each access or event */
#define PERLOVASTA_ENTRY 8u    /* bytes of a log for each access or event */
#define PERLOVASTA_CHIP 88u    /* least length of a virtual chip */

/* What happens on the bus; the argument is 0 where none is named. */
enum perlovasta_event_number {
    PERLOVASTA_EVENT_OWN_START = 1,
    PERLOVASTA_EVENT_ANOTHERS_START = 2,
    PERLOVASTA_EVENT_ANOTHERS_STOP = 3,
    PERLOVASTA_EVENT_OWN_STOP = 4,
    PERLOVASTA_EVENT_ADDRESS_BYTE = 5,    /* the byte */
    PERLOVASTA_EVENT_BYTE_OUT = 6,        /* 0 ACK, 1 NACK */
    PERLOVASTA_EVENT_BYTE_IN = 7,         /* the byte */
    PERLOVASTA_EVENT_LOST_IN_ADDRESS = 8, /* arbitration lost; the winner's byte */
    PERLOVASTA_EVENT_LOST_IN_DATA = 9,    /* arbitration lost */
    PERLOVASTA_EVENT_ILLEGAL_PLACE = 10,  /* START or STOP at an illegal place */
    PERLOVASTA_EVENT_SDA_HELD = 11,       /* after nine clocks */
    PERLOVASTA_EVENT_SCL_LOW = 12,        /* past the time-out */
    PERLOVASTA_EVENT_IDLE = 13,           /* past the time-out */
    PERLOVASTA_EVENT_RESET_PIN = 14
};

/* Why an access or event is refused. A refusal changes nothing, and its value is
 * 0. Bytes that are no record are refused 10, whatever is asked. For a record the
 * first that applies is given, in the order 1, 2, 10, 9, 3, 4, 5, 6, 7, 8. */
enum perlovasta_refusal_number {
    PERLOVASTA_ACCEPTED = 0,
    PERLOVASTA_REFUSAL_OUT_OF_RANGE = 1, /* register over 3, or event not 1..14 */
    PERLOVASTA_REFUSAL_BAD_ARGUMENT = 2, /* not 0 where unused, or over 1 for event 6 */
    PERLOVASTA_REFUSAL_ON_THE_WIRE = 3,  /* a wire turn (Address to Restarting) forbids it */
    PERLOVASTA_REFUSAL_LOCKED = 4,       /* I2CCON write at 00h, 70h or 78h */
    PERLOVASTA_REFUSAL_UNLISTED = 5,     /* I2CCON write, ENSIO 1: not for this status */
    PERLOVASTA_REFUSAL_BAD_COUNT = 6,    /* a buffered move would start, BC not 1..68 */
    PERLOVASTA_REFUSAL_BUFFER_END = 7,   /* I2CDAT access with the hand place at 68 */
    PERLOVASTA_REFUSAL_UNEXPECTED = 8,   /* the event is not expected now */
    PERLOVASTA_REFUSAL_INACCESSIBLE = 9, /* register 2: write at 07h, or read at 05h */
    PERLOVASTA_REFUSAL_UNSOUND = 10      /* the record is not sound, or is none */
};

/* What the controller waits for. */
enum perlovasta_turn_number {
    PERLOVASTA_TURN_OFF = 0,
    PERLOVASTA_TURN_HOST = 1, /* SI is 1, and there is a status */
    PERLOVASTA_TURN_FREE = 2,
    PERLOVASTA_TURN_BUSY = 3,
    PERLOVASTA_TURN_LISTEN = 4,
    PERLOVASTA_TURN_ADDRESS = 5,
    PERLOVASTA_TURN_SEND = 6,
    PERLOVASTA_TURN_RECEIVE = 7,
    PERLOVASTA_TURN_SLAVE_RECEIVE = 8, /* by its own address */
    PERLOVASTA_TURN_SLAVE_SEND = 9,
    PERLOVASTA_TURN_STOPPING = 10,
    PERLOVASTA_TURN_RESTARTING = 11,
    PERLOVASTA_TURN_HOST_AFTER_START = 17,     /* Host at A0h, after a START */
    PERLOVASTA_TURN_SLAVE_RECEIVE_GENERAL = 24 /* SlaveReceive by General Call */
};

/*
 * Why a move ended: set by each new status but F8h and by a reset, and kept by
 * everything else, so while a data move goes on it is that of the status before.
 * It does not tell whether a job is done: a read that is done ends with 58h, one
 * whose address was not acknowledged with 48h, and both are 2; a write has 1 at
 * 18h, before any data byte, as it has at 28h. A job's answer tells. These are no
 * answers of a job, and 0 is not "done".
 */
enum perlovasta_reason {
    /* fresh, or set by 08h, 10h, 60h, A8h, D0h */
    PERLOVASTA_REASON_NONE_YET = 0,
    /* 28h, 50h, 80h, B8h, C8h, E0h, and 18h and 40h, where no data byte has moved */
    PERLOVASTA_REASON_COUNT_REACHED = 1,
    /* also on the last byte: 20h, 30h, 48h, C0h by the other side; 58h, 88h, E8h by
     * the controller */
    PERLOVASTA_REASON_NACK = 2,
    /* another's START or STOP ended a slave reception: A0h */
    PERLOVASTA_REASON_OUTSIDE = 3,
    PERLOVASTA_REASON_ARBITRATION_LOST = 4, /* 38h, 68h, B0h, D8h */
    PERLOVASTA_REASON_FAULT = 5,            /* 00h, 70h, 78h */
    PERLOVASTA_REASON_RESET = 6             /* by the pin or by software */
};

#ifdef __cplusplus
extern "C" {
#endif

/*
 * One job, on a fresh controller enabled by 40h. Returns the answer, 0 for done:
 * perlovasta_terms.h has them all. PERLOVASTA_NOT_READY is not given here.
 *
 * kind         0 write, 1 read
 * address      08h..77h, the seven-bit address
 * n            1..68, how many data bytes
 * data         of a write, at least n bytes; not looked at for a read
 * destination  of a read, at least n bytes; its first n bytes are written for
 *              answer 0 of a read and never otherwise, its rest stays
 * out          at least 69 bytes; begins with the bytes sent, its rest stays
 * script       pairs (event, argument), taken while the job lasts
 * report       at least 12 bytes; its first 12 are written, its rest stays. The
 *              functions below read it:
 *                0       the answer again
 *                1       for answer 28 the refusal's number, else 0
 *                2       the count: n for 0, for 24 the data bytes moved with
 *                        the one not acknowledged, else 0
 *                3       how many bytes were sent, 0..69: out begins with them
 *                4..11   pairs taken, low byte first; the one refused, for 28, is
 *                        not counted
 *
 * Where n, address, kind or a length is wrong, or the script is of odd length, it
 * is answered 21: the report says so, and all else stays. For a report of under
 * 12 bytes it is 21 too, and nothing at all is written. After 25 a chip stays at
 * status 38h until another's STOP, a time-out, a reset or ENSIO 0; a fresh
 * controller knows nothing of that, a virtual chip does.
 */
PERLOVASTA_LOOK PERLOVASTA_NO_NULL uint8_t
perlovasta_job(uint8_t kind, uint8_t address, uint8_t n,
               const uint8_t *data, size_t data_len,
               uint8_t *destination, size_t destination_len,
               uint8_t *out, size_t out_len,
               const uint8_t *script, size_t script_len,
               uint8_t *report, size_t report_len);

/*
 * One trace, on a fresh controller: as after reset, but with no reason yet; not
 * enabled. Returns 0 if it was run. Returns 21, and nothing is written, if the
 * trace is not whole groups, has a group of another kind, or the log is too short.
 *
 * trace  groups of three bytes: 00 R x reads register R (x is not looked at),
 *        01 R V writes V to register R, 02 E A gives event E with argument A
 * log    at least eight bytes for each group; for each eight are written, the
 *        rest stays:
 *          0  refusal, 0 for accepted
 *          1  value: of a read the byte, of event 6 the byte sent, 1 for a
 *             NACK in events 5, 7 and 8, else 0
 *          2  register 0 (I2CSTA) after it
 *          3  register 3 (I2CCON) after it
 *          4  hand place after it: the place of the buffer, 0 to 68, that I2CDAT
 *             reads or writes next. Each such access moves it on by one; an
 *             accepted write of I2CCON, or a new status but F8h, puts it to 0
 *          5  moved count after it: the data bytes moved since the last accepted
 *             write of I2CCON
 *          6  three things after it, taken apart by the functions below
 *          7  turn after it
 */
PERLOVASTA_LOOK PERLOVASTA_NO_NULL uint8_t
perlovasta_trace(const uint8_t *trace, size_t trace_len, uint8_t *log, size_t log_len);

/*
 * The virtual chip: a controller in 88 lent bytes. More may be lent: only the
 * first 88 are looked at or written. The bytes may be copied, kept and restored;
 * only these functions write them. By place:
 *    0,1     50h 43h, the mark of a record
 *    2       the turn, as in a log; 17 at another status than A0h means 1
 *    3       in Host the status, else F8h
 *    4       why a move ended
 *    5..10   AA, ENSIO, STA, STO, MODE, software reset armed: each 0 or 1
 *    11..13  hand place, moved count, pointer
 *    14..19  I2CCOUNT, I2CADR, I2CSCLL, I2CSCLH, I2CTO, I2CMODE
 *    20..87  the buffer
 *
 * Any bytes are answered. Those that are no record are refused 10 whatever is
 * asked, event 14 too: under 88 of them, no mark, or a turn, a reason or a flag
 * that there is not. A record that is not sound is refused 10 too, after 1 and 2;
 * event 14 resets it. A record is sound if the pointer is at most 7, hand place
 * and moved count at most 68, I2CMODE at most 3, the status in Host one that the
 * controller gives, and in Send, Receive, SlaveReceive and SlaveSend the moved
 * count is 0 with MODE 0, and with MODE 1 below BC, which is at most 68 (BC is the
 * low seven bits of I2CCOUNT). What is accepted leaves it sound.
 */

/* The bytes now hold a fresh controller, as that of a trace, its buffer all zeros.
 * Returns 0, or 10 for under 88 bytes: nothing is written then. */
PERLOVASTA_LOOK PERLOVASTA_NO_NULL uint8_t
perlovasta_chip_fresh(uint8_t *chip, size_t chip_len);

/* For the headers alone: the reply of an access or event in one number, the refusal
 * in bits 0 to 7, the value in bits 8 to 15. perlovasta_chip_read, _write and
 * _event below make a reply of it. */
PERLOVASTA_LOOK PERLOVASTA_NO_NULL uint32_t
perlovasta_chip_read_packed(uint8_t *chip, size_t chip_len, uint8_t reg);
PERLOVASTA_LOOK PERLOVASTA_NO_NULL uint32_t
perlovasta_chip_write_packed(uint8_t *chip, size_t chip_len, uint8_t reg, uint8_t value);
PERLOVASTA_LOOK PERLOVASTA_NO_NULL uint32_t
perlovasta_chip_event_packed(uint8_t *chip, size_t chip_len, uint8_t event, uint8_t argument);

/*
 * As perlovasta_job, on the controller in these bytes, which is left as the job
 * leaves it. 22 where it is not ready: its turn is not Free, ENSIO is 0, STA is 1,
 * it is not sound, or the bytes are no record; so after 25, until status 38h is
 * left. 21 comes first. Both leave the chip's bytes as they were. After 26 to 29
 * event 14 and then a write of 40h to I2CCON make it ready again; its registers
 * are as after reset then.
 */
PERLOVASTA_LOOK PERLOVASTA_NO_NULL uint8_t
perlovasta_chip_job(uint8_t *chip, size_t chip_len,
                    uint8_t kind, uint8_t address, uint8_t n,
                    const uint8_t *data, size_t data_len,
                    uint8_t *destination, size_t destination_len,
                    uint8_t *out, size_t out_len,
                    const uint8_t *script, size_t script_len,
                    uint8_t *report, size_t report_len);

#ifdef __cplusplus
}
#endif

/* What the virtual chip replies. As a struct it can be taken neither for a bool
 * nor for the byte: the refusal comes first. */
typedef struct {
    uint8_t refusal; /* 0 for accepted */
    uint8_t value;   /* as in a log; 0 where refused */
} perlovasta_reply;

static inline perlovasta_reply perlovasta_reply_of(uint32_t packed) {
    perlovasta_reply reply = {(uint8_t)packed, (uint8_t)(packed >> 8)};
    return reply;
}

/* Reads register 0 to 3. */
PERLOVASTA_LOOK PERLOVASTA_NO_NULL static inline perlovasta_reply
perlovasta_chip_read(uint8_t *chip, size_t chip_len, uint8_t reg) {
    return perlovasta_reply_of(perlovasta_chip_read_packed(chip, chip_len, reg));
}

/* Writes register 0 to 3. */
PERLOVASTA_LOOK PERLOVASTA_NO_NULL static inline perlovasta_reply
perlovasta_chip_write(uint8_t *chip, size_t chip_len, uint8_t reg, uint8_t value) {
    return perlovasta_reply_of(perlovasta_chip_write_packed(chip, chip_len, reg, value));
}

/* Something happens on the bus. */
PERLOVASTA_LOOK PERLOVASTA_NO_NULL static inline perlovasta_reply
perlovasta_chip_event(uint8_t *chip, size_t chip_len, uint8_t event, uint8_t argument) {
    return perlovasta_reply_of(perlovasta_chip_event_packed(chip, chip_len, event, argument));
}

/*
 * A read whose bytes can't be taken where it is not done: for PERLOVASTA_IF_DONE.
 * Parameters and answers are those of the job.
 */
PERLOVASTA_LOOK PERLOVASTA_NO_NULL static inline perlovasta_read_result
perlovasta_read_job(uint8_t address, uint8_t n, const uint8_t *script, size_t script_len,
                    uint8_t *report, size_t report_len) {
    perlovasta_read_result read = {0, 0, {0}};
    uint8_t out[PERLOVASTA_OUT];
    const uint8_t none = 0;
    uint8_t answer = perlovasta_job(PERLOVASTA_READ, address, n, &none, 0,
                                    read.bytes, sizeof read.bytes, out, sizeof out,
                                    script, script_len, report, report_len);
    return perlovasta_ended(read, answer, n);
}

/* The same on a virtual chip. */
PERLOVASTA_LOOK PERLOVASTA_NO_NULL static inline perlovasta_read_result
perlovasta_chip_read_job(uint8_t *chip, size_t chip_len, uint8_t address, uint8_t n,
                         const uint8_t *script, size_t script_len,
                         uint8_t *report, size_t report_len) {
    perlovasta_read_result read = {0, 0, {0}};
    uint8_t out[PERLOVASTA_OUT];
    const uint8_t none = 0;
    uint8_t answer = perlovasta_chip_job(chip, chip_len, PERLOVASTA_READ, address, n, &none, 0,
                                         read.bytes, sizeof read.bytes, out, sizeof out,
                                         script, script_len, report, report_len);
    return perlovasta_ended(read, answer, n);
}

/* What a report of at least 12 bytes says, once a job has written it: the answer;
 * for answer 28 why the event was refused, else 0; the count; how many bytes were
 * sent, with which out begins; how many pairs of the script were taken. */
PERLOVASTA_NO_NULL static inline uint8_t perlovasta_report_answer(const uint8_t *report) {
    return report[0];
}
PERLOVASTA_NO_NULL static inline uint8_t perlovasta_report_refusal(const uint8_t *report) {
    return report[1];
}
PERLOVASTA_NO_NULL static inline uint8_t perlovasta_report_count(const uint8_t *report) {
    return report[2];
}
PERLOVASTA_NO_NULL static inline uint8_t perlovasta_report_sent(const uint8_t *report) {
    return report[3];
}
PERLOVASTA_NO_NULL static inline uint64_t perlovasta_report_pairs(const uint8_t *report) {
    uint64_t pairs = 0;
    for (size_t i = PERLOVASTA_REPORT; i > 4; i--)
        pairs = pairs << 8 | report[i - 1];
    return pairs;
}

/* What a log says of group k, counted from 0 and below the number of groups, once
 * perlovasta_trace has returned 0: why a move ended; the pointer, 0 to 7; 1 if the
 * software reset is armed, else 0. */
PERLOVASTA_NO_NULL static inline uint8_t perlovasta_log_reason(const uint8_t *log, size_t k) {
    return log[k * PERLOVASTA_ENTRY + 6] >> 4 & 7;
}
PERLOVASTA_NO_NULL static inline uint8_t perlovasta_log_pointer(const uint8_t *log, size_t k) {
    return log[k * PERLOVASTA_ENTRY + 6] & 15;
}
PERLOVASTA_NO_NULL static inline uint8_t perlovasta_log_armed(const uint8_t *log, size_t k) {
    return log[k * PERLOVASTA_ENTRY + 6] >> 7;
}

#endif
