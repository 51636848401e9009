/* Nobody asks why there is no badge.
 * expected: 1 unused-but-set-variable */
#include "perlovasta.h"

int open_door(const uint8_t *script, size_t script_len);
int open_door(const uint8_t *script, size_t script_len) {
    uint8_t answer, report[PERLOVASTA_REPORT];
    PERLOVASTA_IF_DONE(badge, answer, perlovasta_read_job(0x50, 8, script, script_len, report, sizeof report)) {
        return badge.bytes[0];
    }
#ifdef RIGHT
    return -answer;
#else
    return -1;
#endif
}
