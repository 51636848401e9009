/* usage: guards     calls every function of both libraries, with every buffer between pages that are closed, once at their end and once at their beginning.
   Prints how many calls there were, and ends with 0; or says which call wrote or gave what it must not, and ends with 1. */
#include <stdio.h>

#include "chip.h"
#include "depth.h"
#include "expect.h"
#include "job.h"
#include "perlovasta.h"
#include "perlovasta_dock.h"
#include "port.h"
#include "random.h"
#include "tally.h"
#include "trace.h"

enum { ROUNDS = 100000, SEED = 12 };

/* What the headers' own functions take in their caller, at most. */
enum { INLINE_STACK = 512 };

static void run(lent_place place) {
    random_seed(SEED);
    for (unsigned i = 0; i < ROUNDS; i++) {
        job_try(place);
        trace_try(place);
        chip_try(place);
        port_try(place);
    }
}

int main(void) {
    expect_faults();
    job_open();
    trace_open();
    chip_open();
    port_open();
    run(AT_END);
    run(AT_BEGIN);
    tally_check();
    EXPECT(depth_most(DEPTH_MODEL) + INLINE_STACK <= PERLOVASTA_STACK && depth_most(DEPTH_PORT) <= PERLOVASTA_DOCK_STACK);
    printf("guards: %zu calls of 12 functions, every buffer between closed pages: nothing is written but what the headers say, and the stack is %zu and %zu"
           " bytes deep at most\n",
           expect_calls(), depth_most(DEPTH_MODEL), depth_most(DEPTH_PORT));
    return 0;
}
