/* The trace function called from C: six groups, their log, and a log that is too short. Ends with 0 if all is as expected. */
#include <stdio.h>
#include <string.h>
#include "perlovasta.h"

int main(void) {
    /* I2CCON 40h: enabled, Free. Another's START: Listen. SCL held low: 78h, a fault. Reset pin: Off. Pointer 05h. A5h: armed. */
    static const uint8_t trace[] = {
        0x01, 0x03, 0x40, 0x02, 0x02, 0x00, 0x02, 0x0C, 0x00, 0x02, 0x0E, 0x00, 0x01, 0x00, 0x05, 0x01, 0x02, 0xA5,
    };
    static const uint8_t expected[] = {
        0, 0, 0xF8, 0x40, 0, 0, 0x00, 2,
        0, 0, 0xF8, 0x40, 0, 0, 0x00, 4,
        0, 0, 0x78, 0x48, 0, 0, 0x50, 1,
        0, 0, 0xF8, 0x00, 0, 0, 0x60, 0,
        0, 0, 0xF8, 0x00, 0, 0, 0x65, 0,
        0, 0, 0xF8, 0x00, 0, 0, 0xE5, 0,
        0xEE,
    };
    uint8_t log[sizeof expected], before[sizeof expected];
    memset(log, 0xEE, sizeof log);
    memcpy(before, log, sizeof log);

    if (perlovasta_trace(trace, sizeof trace, log, 47) != PERLOVASTA_MALFORMED || memcmp(log, before, sizeof log) != 0) {
        puts("a log of 47 bytes for six groups: not refused");
        return 1;
    }
    if (perlovasta_trace(trace, sizeof trace, log, sizeof log) != PERLOVASTA_DONE || memcmp(log, expected, sizeof log) != 0) {
        puts("the log of six groups: not what is expected");
        return 1;
    }
    if (perlovasta_log_reason(log, 2) != PERLOVASTA_REASON_FAULT || perlovasta_log_pointer(log, 2) != 0 || perlovasta_log_armed(log, 2) != 0 ||
        perlovasta_log_reason(log, 5) != PERLOVASTA_REASON_RESET || perlovasta_log_pointer(log, 5) != 5 || perlovasta_log_armed(log, 5) != 1) {
        puts("reason, pointer or armed of a group: not what is expected");
        return 1;
    }
    return 0;
}
