/* A take whose answer is dropped on purpose. clang lets that be.
 * expected of gcc: 1 unused-result */
#include "perlovasta_dock.h"

int open_door(uint8_t *state, size_t state_len);
int open_door(uint8_t *state, size_t state_len) {
    uint8_t badge[8] = {0};
#ifdef RIGHT
    if (perlovasta_take(state, state_len, badge, sizeof badge) != PERLOVASTA_DONE)
        return -1;
#else
    (void)perlovasta_take(state, state_len, badge, sizeof badge);
#endif
    return badge[0];
}
