/* The bytes are taken, and nobody looks whether there were any.
 * expected: 1 unused-variable */
#include "perlovasta_dock.h"

int open_door(uint8_t *state, size_t state_len);
int open_door(uint8_t *state, size_t state_len) {
    uint8_t badge[8] = {0};
    uint8_t answer = perlovasta_take(state, state_len, badge, sizeof badge);
#ifdef RIGHT
    if (answer != PERLOVASTA_DONE)
        return -1;
#endif
    return badge[0];
}
