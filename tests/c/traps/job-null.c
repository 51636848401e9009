/* A read has no data, so NULL is lent.
 * expected: 1 nonnull */
#include "perlovasta.h"

uint8_t open_door(const uint8_t *script, size_t script_len);
uint8_t open_door(const uint8_t *script, size_t script_len) {
    uint8_t badge[8], out[PERLOVASTA_OUT], report[PERLOVASTA_REPORT];
#ifdef RIGHT
    const uint8_t none = 0;
    return perlovasta_job(PERLOVASTA_READ, 0x50, 8, &none, 0, badge, sizeof badge, out, sizeof out, script, script_len, report, sizeof report);
#else
    return perlovasta_job(PERLOVASTA_READ, 0x50, 8, NULL, 0, badge, sizeof badge, out, sizeof out, script, script_len, report, sizeof report);
#endif
}
