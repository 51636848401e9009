/* The bytes of a read are used after its block, where it may have failed.
 * expected: 1 undeclared|not declared */
#include "perlovasta.h"

int open_door(const uint8_t *script, size_t script_len);
int open_door(const uint8_t *script, size_t script_len) {
    uint8_t answer, report[PERLOVASTA_REPORT];
    PERLOVASTA_IF_DONE(badge, answer, perlovasta_read_job(0x50, 8, script, script_len, report, sizeof report)) {
#ifdef RIGHT
        return badge.bytes[0];
#endif
    }
#ifdef RIGHT
    return -answer;
#else
    return answer == PERLOVASTA_DONE ? badge.bytes[0] : -1;
#endif
}
