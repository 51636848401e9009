/* A step of the port is taken for the answer.
 * expected: 1 conversion */
#include "perlovasta_dock.h"

int has_badge(uint8_t *state, size_t state_len);
int has_badge(uint8_t *state, size_t state_len) {
#ifdef RIGHT
    perlovasta_step step = perlovasta_next(state, state_len, 0);
    return perlovasta_kind(step) == PERLOVASTA_OVER && perlovasta_answer(step) == PERLOVASTA_DONE;
#else
    uint8_t answer = perlovasta_next(state, state_len, 0);
    return answer == PERLOVASTA_DONE;
#endif
}
