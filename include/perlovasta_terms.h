/*
 * The terms that both libraries of Perlovasta share: version, answers, kinds,
 * registers, and the block in which the bytes of a read are. Included by
 * perlovasta.h and perlovasta_dock.h.
 *
 * Compile with -Wall -Wextra -Wconversion -Werror, by gcc or clang, as C11 or
 * C++11. Then each of these is an error:
 *   - an answer that is dropped, or put into a local variable that nothing reads
 *   - NULL for a pointer, where the compiler sees that it is NULL
 *   - a step of the port put into a byte, as if it were the answer
 *   - a reply of a virtual chip taken for a byte or a bool
 *   - a read's name, and so its bytes, after the block below
 *
 * What C can't refuse, so it compiles:
 *   - an array of one's own, lent as a destination and used before the answer is
 *     looked at
 *   - the bytes of a perlovasta_read_result that is kept in a variable, with no
 *     block: where the answer is not 0 they are zeros, and n is 0
 *   - an answer that is put into a global, or overwritten by that of the next
 *     call, or read by `(void)answer;` alone
 *   - `(void)perlovasta_job(..)`, by clang; gcc refuses it
 *   - `if (perlovasta_job(..))`: true where the job failed, since 0 is done
 *   - `if (perlovasta_next(..))`, which is always true, since no step is 0, and
 *     `if (step == PERLOVASTA_DONE)`, which never is: perlovasta_answer has the
 *     answer of a step
 *
 * For every pointer: it is never NULL, also where its length is 0; the bytes it
 * lends are as many as its length says; and no two of the slices of one call
 * overlap. No function needs a heap or keeps anything but the bytes lent to it:
 * it is re-entrant, and threads may call at once, each with bytes of its own. As
 * built here it is for x86-64 Linux.
 */
#ifndef PERLOVASTA_TERMS_H
#define PERLOVASTA_TERMS_H

#include <stddef.h>
#include <stdint.h>

#define PERLOVASTA_VERSION "1.0.0"
#define PERLOVASTA_VERSION_MAJOR 1
#define PERLOVASTA_VERSION_MINOR 0
#define PERLOVASTA_VERSION_PATCH 0

/* What is answered has to be looked at, and no pointer is NULL. */
#if defined(__GNUC__) || defined(__clang__)
#define PERLOVASTA_LOOK __attribute__((warn_unused_result))
#define PERLOVASTA_NO_NULL __attribute__((nonnull))
#else
#define PERLOVASTA_LOOK
#define PERLOVASTA_NO_NULL
#endif

#define PERLOVASTA_PLACES 68u /* the most bytes that one job moves */

/* The kind of a job; any other is answered 21. */
enum perlovasta_job_kind {
    PERLOVASTA_WRITE = 0, /* n bytes of data are sent */
    PERLOVASTA_READ = 1   /* n bytes are read */
};

/* What a job is answered. */
enum perlovasta_answer_number {
    PERLOVASTA_DONE = 0,            /* done, after own STOP */
    PERLOVASTA_MALFORMED = 21,      /* n, address, kind or a length is wrong; nothing was done */
    PERLOVASTA_NOT_READY = 22,      /* the controller is not ready; nothing was done */
    PERLOVASTA_ADDRESS_NACKED = 23, /* address not acknowledged, after own STOP */
    PERLOVASTA_DATA_NACKED = 24,    /* data byte not acknowledged, after own STOP */
    PERLOVASTA_LOST = 25,           /* arbitration lost; no job begins until the bus is free */
    PERLOVASTA_FAULT = 26,          /* bus fault: status 00h, 70h or 78h */
    PERLOVASTA_UNFINISHED = 27,     /* the script ended first; of the port: given up */
    PERLOVASTA_REFUSED = 28,        /* the model refused an event; never of the port */
    PERLOVASTA_RESET = 29           /* the chip was reset */
};

/* The registers by their number. Number 0 is two: it reads I2CSTA, and it writes
 * INDPTR, the pointer. I2CCON's bits: AA 80h, ENSIO 40h, STA 20h, STO 10h, SI 08h,
 * MODE 01h. */
enum perlovasta_register_number {
    PERLOVASTA_REGISTER_I2CSTA = 0,     /* read */
    PERLOVASTA_REGISTER_INDPTR = 0,     /* written */
    PERLOVASTA_REGISTER_I2CDAT = 1,     /* the buffer's next byte */
    PERLOVASTA_REGISTER_AT_POINTER = 2, /* the register that the pointer names */
    PERLOVASTA_REGISTER_I2CCON = 3
};

/* What the pointer names. 07h is a counter on the association's board, which the
 * model has; it is no register of a bare chip. */
enum perlovasta_pointer_number {
    PERLOVASTA_POINTER_I2CCOUNT = 0x00,
    PERLOVASTA_POINTER_I2CADR = 0x01,
    PERLOVASTA_POINTER_I2CSCLL = 0x02,
    PERLOVASTA_POINTER_I2CSCLH = 0x03,
    PERLOVASTA_POINTER_I2CTO = 0x04,
    PERLOVASTA_POINTER_I2CPRESET = 0x05,
    PERLOVASTA_POINTER_I2CMODE = 0x06,
    PERLOVASTA_POINTER_MOVED_COUNT = 0x07
};

/* An answer in words; any number has some. */
static inline const char *perlovasta_words(uint8_t answer) {
    switch (answer) {
    case PERLOVASTA_DONE: return "done";
    case PERLOVASTA_MALFORMED: return "the job's count, address, lengths or script are wrong";
    case PERLOVASTA_NOT_READY: return "the controller is not ready";
    case PERLOVASTA_ADDRESS_NACKED: return "the reader did not answer its address";
    case PERLOVASTA_DATA_NACKED: return "the reader did not take a data byte";
    case PERLOVASTA_LOST: return "arbitration was lost to another master";
    case PERLOVASTA_FAULT: return "bus fault";
    case PERLOVASTA_UNFINISHED: return "the script ended first";
    case PERLOVASTA_REFUSED: return "the controller refused an event";
    case PERLOVASTA_RESET: return "the controller was reset";
    default: return "this is the number of no answer";
    }
}

/* What a read gave: its bytes exactly for answer 0. Where it is another, n is 0
 * and all bytes are zeros, so never those of an earlier read. */
typedef struct {
    uint8_t answer;
    uint8_t n; /* how many bytes */
    uint8_t bytes[PERLOVASTA_PLACES];
} perlovasta_read_result;

/* For the headers alone: these bytes, with the answer to the read of n of them. */
static inline perlovasta_read_result
perlovasta_ended(perlovasta_read_result read, uint8_t answer, uint8_t n) {
    read.answer = answer;
    read.n = 0;
    if (answer == PERLOVASTA_DONE)
        read.n = n;
    return read;
}

/*
 * A block that runs exactly if the read was answered 0, once, and has its bytes:
 *
 *     uint8_t answer;
 *     PERLOVASTA_IF_DONE(badge, answer, perlovasta_read_job(..)) {
 *         .. badge.bytes[0] to badge.bytes[badge.n - 1] ..
 *     }
 *     if (answer != PERLOVASTA_DONE)
 *         .. perlovasta_words(answer) ..
 *
 * The answer is stored once, before the block, whatever it is: a block that finds
 * the bytes wrong can store another. After the block there is no `badge`, so that
 * its use there does not compile: bytes that are wanted later have to be copied in
 * the block. break and continue leave it. It has no else: after
 * `if (x) PERLOVASTA_IF_DONE(..) {..}` an else is that of the `if (x)`.
 * (`stored` has no brackets: clang would take it for read then.)
 */
#define PERLOVASTA_IF_DONE(read, stored, call)                                  \
    for (perlovasta_read_result read = (call),                                  \
             *read##_once = (stored = read.answer, read.n != 0) ? &read : NULL; \
         read##_once != NULL; read##_once = NULL)

#endif
