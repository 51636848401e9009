/* The accident: the answer is dropped, and the badge is used whatever came.
 * expected: 1 unused-result */
#include "perlovasta.h"

int open_door(const uint8_t *script, size_t script_len);
int open_door(const uint8_t *script, size_t script_len) {
    const uint8_t none = 0;
    uint8_t badge[8] = {0}, out[PERLOVASTA_OUT], report[PERLOVASTA_REPORT];
#ifdef RIGHT
    if (perlovasta_job(PERLOVASTA_READ, 0x50, 8, &none, 0, badge, sizeof badge, out, sizeof out, script, script_len, report, sizeof report) != PERLOVASTA_DONE)
        return -1;
#else
    perlovasta_job(PERLOVASTA_READ, 0x50, 8, &none, 0, badge, sizeof badge, out, sizeof out, script, script_len, report, sizeof report);
#endif
    return badge[0];
}
