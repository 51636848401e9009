/* What C can't refuse: wrong programs that compile all the same, in the order in which perlovasta_terms.h lists them. */
#include "perlovasta.h"
#include "perlovasta_dock.h"

#define JOB perlovasta_job(PERLOVASTA_READ, 0x50, 8, none, 0, badge, sizeof badge, out, sizeof out, none, 0, report, sizeof report)

uint8_t last_answer; /* a global, which nothing has to read */

static const uint8_t none[1] = {0};
static uint8_t badge[8], out[PERLOVASTA_OUT], report[PERLOVASTA_REPORT];

int use_own_array(void);
int use_own_array(void) {
    uint8_t answer = JOB;
    int used = badge[0];
    return answer == PERLOVASTA_DONE ? used : -1;
}

int use_result(void);
int use_result(void) {
    perlovasta_read_result read = perlovasta_read_job(0x50, 8, none, 0, report, sizeof report);
    return read.bytes[0];
}

void keep_answers(void);
void keep_answers(void) {
    uint8_t answer = JOB;
    answer = JOB;
    (void)answer;
    last_answer = JOB;
#ifdef __clang__
    (void)JOB;
#endif
}

int take_for_truth(uint8_t *state, size_t state_len);
int take_for_truth(uint8_t *state, size_t state_len) {
    perlovasta_step step = perlovasta_next(state, state_len, 0);
    if (JOB)
        return 1;
    if (perlovasta_next(state, state_len, 0))
        return 2;
    if (step == PERLOVASTA_DONE)
        return 3;
    return 0;
}
