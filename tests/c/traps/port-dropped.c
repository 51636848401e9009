/* Whatever the port answers is dropped. (CALL makes of each call what the two programs differ in.)
 * expected: 6 unused-result */
#include "perlovasta_dock.h"

#ifdef RIGHT
#define CALL(call, answer) if ((call)answer != 0) return 1
#else
#define CALL(call, answer) call
#endif

int use(uint8_t *state, size_t state_len);
int use(uint8_t *state, size_t state_len) {
    uint8_t bytes[8] = {0};
    CALL(perlovasta_recover(state, state_len, bytes, 0), );
    CALL(perlovasta_start(state, state_len, PERLOVASTA_READ, 0x50, 8, bytes, 0), );
    CALL(perlovasta_next(state, state_len, 0), );
    CALL(perlovasta_give_up(state, state_len), );
    CALL(perlovasta_take(state, state_len, bytes, sizeof bytes), );
    CALL(perlovasta_take_read(state, state_len, PERLOVASTA_OVER), .answer);
    return 0;
}
