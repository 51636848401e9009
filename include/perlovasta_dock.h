/*
 * Perlovasta in a dock: the proved driver for a PCA9665, asked for one register
 * access at a time. It makes none itself: the board does what a step says, and
 * hands the value that was read to the next step. libdock.a has it.
 *
 *     PERLOVASTA_LOOK static perlovasta_step run(perlovasta_step step) {
 *         start the clock;
 *         while (perlovasta_kind(step) != PERLOVASTA_OVER) {
 *             uint8_t value = 0;
 *             switch (perlovasta_kind(step)) {
 *             case PERLOVASTA_WRITE_REGISTER: write register, value; break;
 *             case PERLOVASTA_READ_REGISTER:  value = read register; break;
 *             case PERLOVASTA_WAIT:  wait for an interrupt, 1 ms at most; break;
 *             case PERLOVASTA_PAUSE: wait 550 us; break;
 *             case PERLOVASTA_OVER:  break;
 *             }
 *             step = the clock ran out
 *                  ? perlovasta_give_up(state, sizeof state)
 *                  : perlovasta_next(state, sizeof state, value);
 *         }
 *         return step;
 *     }
 *
 *     uint8_t state[PERLOVASTA_STATE] = {0};
 *     step = run(perlovasta_recover(state, sizeof state, none, 0));
 *     .. if it is answered 0, then for each badge ..
 *     step = run(perlovasta_start(state, sizeof state, PERLOVASTA_READ, 0x50, 8, none, 0));
 *     PERLOVASTA_IF_DONE(badge, answer, perlovasta_take_read(state, sizeof state, step)) {
 *         .. the 8 bytes of badge.bytes are those that were read ..
 *     }
 *     if (answer != PERLOVASTA_DONE)
 *         .. there is no badge ..
 *
 * examples/c/dock.c is such a loop, to be compiled and run.
 *
 * One state is for one chip, and one chip for one state: never copy a state,
 * never restore an old one, fill it with zeros once before the first call. One
 * call at a time: none from an interrupt while another is under way. A wait may
 * end early, with nothing come: the port looks, and waits on. It must end now
 * and then, since a chip interrupts neither at own STOP nor at a reset.
 *
 * perlovasta_terms.h says what both libraries want of a caller, and which flags to
 * compile with (`none` above is a pointer to any byte). This one keeps nothing but
 * the state, calls nothing outside itself, and takes at most PERLOVASTA_DOCK_STACK
 * bytes of stack. A state of under 148 bytes is answered with 21 by every function,
 * and nothing is written. Never more than 72 accesses come in a row.
 */
#ifndef PERLOVASTA_DOCK_H
#define PERLOVASTA_DOCK_H

#include "perlovasta_terms.h"

/* Bytes at most, of one call into libdock.a. perlovasta_take_read, which this header
 * has compiled into the caller, takes up to 512 more there. */
#define PERLOVASTA_DOCK_STACK 256u

/* Bytes of a state. Any content is answered, and zeros are a state that is over
 * with 22 and wants a recovery first. (Bytes that begin with 50h 76h are taken
 * for a state that a call has written.) */
#define PERLOVASTA_STATE 148u

/* The most settings that a recovery takes, in bytes: six pairs. */
#define PERLOVASTA_SETTINGS 12u

/* What the board has to do next, as one number. Take it apart by the four
 * functions below. */
typedef uint32_t perlovasta_step;

enum perlovasta_step_kind {
    PERLOVASTA_WRITE_REGISTER = 1, /* the register, with the value */
    PERLOVASTA_READ_REGISTER = 2,  /* the register; its value is for the next step */
    PERLOVASTA_WAIT = 3,           /* until the chip interrupts, 1 ms at most */
    PERLOVASTA_PAUSE = 4,          /* 550 us, for the chip's oscillator */
    PERLOVASTA_OVER = 5            /* nothing any more: the answer, and its count */
};

/* 1 to 5, as above; 0 for a number that is no step, which no function gives. A
 * switch over it without default has to name all five: so one that has
 * PERLOVASTA_READ, the kind of a job, for PERLOVASTA_READ_REGISTER is refused. */
static inline enum perlovasta_step_kind perlovasta_kind(perlovasta_step step) {
    unsigned kind = step & 0xFFu;
    return (enum perlovasta_step_kind)(kind <= PERLOVASTA_OVER ? kind : 0u);
}

/* Of a read or write: which one, enum perlovasta_register_number. */
static inline uint8_t perlovasta_register(perlovasta_step step) {
    return (uint8_t)(step >> 8);
}

/* Of a write: the byte to be written. */
static inline uint8_t perlovasta_value(perlovasta_step step) {
    return (uint8_t)(step >> 16);
}

/* Of a step that is over: the answer, enum perlovasta_answer_number. Of any other
 * PERLOVASTA_UNFINISHED, so never 0. */
static inline uint8_t perlovasta_answer(perlovasta_step step) {
    if (perlovasta_kind(step) != PERLOVASTA_OVER)
        return PERLOVASTA_UNFINISHED;
    return (uint8_t)(step >> 8);
}

/* Of a step that is over: n for answer 0 of a job; for 24 what the board's
 * counter at pointer 07h read, the data bytes moved with the one not
 * acknowledged (a bare chip has no such register); else 0. Of any other step 0. */
static inline uint8_t perlovasta_count(perlovasta_step step) {
    if (perlovasta_kind(step) != PERLOVASTA_OVER)
        return 0;
    return (uint8_t)(step >> 16);
}

#ifdef __cplusplus
extern "C" {
#endif

/*
 * A job begins. Its first step is given; a job that is refused with 21, or by
 * its state with 22, is over at once, and no access is made.
 *
 * kind     0 write, 1 read; any other is answered 21
 * address  08h..77h, the seven-bit address
 * n        1..68, how many data bytes
 * data     of a write, at least n bytes, copied now; not looked at for a read
 *
 * Whatever the state held before: nothing of it shows any more but whether a
 * recovery is wanted, and what was under way is given up, also where the job is
 * refused. 21 comes before 22.
 *
 * Answers, in a step that is over:
 *   0  done: own STOP was seen
 *  21  kind, address, n or the length of data is wrong
 *  22  not ready. The chip said so: I2CCON not enabled, or STA, STO or SI 1, or
 *      I2CSTA not F8h; no write was made. Or the state said so, with no access
 *      at all: it is new, or a job was given up, or one is under way. Then
 *      perlovasta_recover comes first
 *  23  address not acknowledged
 *  24  data byte not acknowledged
 *  25  arbitration lost. The chip stays at status 38h until another's STOP;
 *      jobs begun before that are 22. Where 22 does not end: perlovasta_recover
 *  26  bus fault: status 00h, 70h or 78h; perlovasta_recover
 *  27  given up; perlovasta_recover. It may also stand for a lost arbitration:
 *      where another's STOP freed the chip between two looks at it, the port did
 *      not see that, and went on waiting
 *  29  the chip was reset: ENSIO reads 0 after a wait, or I2CCON is not as it was
 *      once the bytes of a read are read back; perlovasta_recover
 */
PERLOVASTA_LOOK PERLOVASTA_NO_NULL perlovasta_step
perlovasta_start(uint8_t *state, size_t state_len, uint8_t kind, uint8_t address,
                 uint8_t n, const uint8_t *data, size_t data_len);

/*
 * The chip is brought back, whatever it was doing: a software reset, the
 * settings, 40h to I2CCON, and a pause. Its answer is 0, or 21 for settings
 * that are not pairs, more than six, or of another register: no access is made
 * then, and what was under way is given up. It leaves the pointer where the last
 * setting stands; a job sets its own.
 *
 * settings  pairs (pointer, value): 00h I2CCOUNT, 01h I2CADR, 06h I2CMODE (the
 *           data sheet wants it before the next two), 02h I2CSCLL, 03h I2CSCLH,
 *           04h I2CTO
 *
 * 0 says that the writes were made: nothing is read back. The job after it looks
 * at the chip first. After power-up the board waits 550 us before it.
 */
PERLOVASTA_LOOK PERLOVASTA_NO_NULL perlovasta_step
perlovasta_recover(uint8_t *state, size_t state_len, const uint8_t *settings,
                   size_t settings_len);

/*
 * The next step. value is what the register read of the last step gave; it is
 * not looked at after any other step. A state that is over stays so.
 */
PERLOVASTA_LOOK PERLOVASTA_NO_NULL perlovasta_step
perlovasta_next(uint8_t *state, size_t state_len, uint8_t value);

/*
 * The caller's clock ran out. It is over with 27, whatever was under way, and
 * no job begins until perlovasta_recover was run to its end. Bytes that were not
 * taken before can't be taken any more.
 */
PERLOVASTA_LOOK PERLOVASTA_NO_NULL perlovasta_step
perlovasta_give_up(uint8_t *state, size_t state_len);

/*
 * The bytes of a finished read go to the destination. Returns 0 exactly if the
 * job is over, is a read and was answered 0, its bytes were not taken before, and
 * the destination has at least n bytes: its first n bytes are written then, its
 * rest stays, and the bytes are gone from the state, which is over with 21 until
 * the next start, recovery or give-up. So the bytes of one read can be taken once.
 * Else nothing is written, the state stays too, and it returns why: 27 if it is
 * not over; else the answer, if that is not 0; else 21, since it was no read or
 * the destination is too short. After the next start, recovery or give-up bytes
 * that were not taken can't be taken any more.
 */
PERLOVASTA_LOOK PERLOVASTA_NO_NULL uint8_t
perlovasta_take(uint8_t *state, size_t state_len, uint8_t *destination,
                size_t destination_len);

#ifdef __cplusplus
}
#endif

/*
 * The bytes of the read that ended with this step: for PERLOVASTA_IF_DONE. The
 * step has to be the last that this state gave. It goes by the step's answer and
 * by that of perlovasta_take, so that the bytes of an earlier read are never taken
 * for those of a job that failed. 21 for a recovery, and where the state holds a
 * read of another length than the step says; the bytes of a shorter one are gone
 * then.
 */
PERLOVASTA_LOOK PERLOVASTA_NO_NULL static inline perlovasta_read_result
perlovasta_take_read(uint8_t *state, size_t state_len, perlovasta_step over) {
    perlovasta_read_result read = {0, 0, {0}};
    uint8_t answer = perlovasta_answer(over), n = perlovasta_count(over);
    uint8_t shorter[PERLOVASTA_PLACES]; /* where a read that has room in n - 1 would go */
    if (answer == PERLOVASTA_DONE && (n == 0 || n > PERLOVASTA_PLACES))
        answer = PERLOVASTA_MALFORMED;
    if (answer == PERLOVASTA_DONE &&
        perlovasta_take(state, state_len, shorter, n - 1u) == PERLOVASTA_DONE)
        answer = PERLOVASTA_MALFORMED;
    if (answer == PERLOVASTA_DONE)
        answer = perlovasta_take(state, state_len, read.bytes, n);
    return perlovasta_ended(read, answer, n);
}

/* An answer of the port in words: of a start, a recovery or a take. */
static inline const char *perlovasta_port_words(uint8_t answer) {
    switch (answer) {
    case PERLOVASTA_MALFORMED:
        return "kind, address, count, settings or a length is wrong, or there are no bytes to take";
    case PERLOVASTA_UNFINISHED: return "given up";
    default: return perlovasta_words(answer);
    }
}

#endif
