/* The bytes that the port has read are used after the block, where the job may have failed.
 * expected: 1 undeclared|not declared */
#include "perlovasta_dock.h"

int open_door(uint8_t *state, size_t state_len, perlovasta_step over);
int open_door(uint8_t *state, size_t state_len, perlovasta_step over) {
    uint8_t answer;
    PERLOVASTA_IF_DONE(badge, answer, perlovasta_take_read(state, state_len, over)) {
#ifdef RIGHT
        return badge.bytes[0];
#endif
    }
#ifdef RIGHT
    return -answer;
#else
    return answer == PERLOVASTA_DONE ? badge.bytes[0] : -1;
#endif
}
