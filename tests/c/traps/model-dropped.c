/* Whatever the model answers is dropped. (CALL makes of each call what the two programs differ in.)
 * expected: 11 unused-result */
#include "perlovasta.h"

#ifdef RIGHT
#define CALL(call, answer) if ((call)answer != 0) return 1
#else
#define CALL(call, answer) call
#endif

int use(uint8_t *chip, size_t chip_len, const uint8_t *script, size_t script_len);
int use(uint8_t *chip, size_t chip_len, const uint8_t *script, size_t script_len) {
    const uint8_t none = 0;
    uint8_t bytes[8], out[PERLOVASTA_OUT], report[PERLOVASTA_REPORT];
    CALL(perlovasta_trace(script, script_len, report, sizeof report), );
    CALL(perlovasta_read_job(0x50, 8, script, script_len, report, sizeof report), .answer);
    CALL(perlovasta_chip_fresh(chip, chip_len), );
    CALL(perlovasta_chip_read_packed(chip, chip_len, 0), );
    CALL(perlovasta_chip_write_packed(chip, chip_len, 3, 0x40), );
    CALL(perlovasta_chip_event_packed(chip, chip_len, 14, 0), );
    CALL(perlovasta_chip_read(chip, chip_len, 0), .refusal);
    CALL(perlovasta_chip_write(chip, chip_len, 3, 0x40), .refusal);
    CALL(perlovasta_chip_event(chip, chip_len, 14, 0), .refusal);
    CALL(perlovasta_chip_job(chip, chip_len, PERLOVASTA_READ, 0x50, 8, &none, 0, bytes, sizeof bytes, out, sizeof out, script, script_len,
                             report, sizeof report), );
    CALL(perlovasta_chip_read_job(chip, chip_len, 0x50, 8, script, script_len, report, sizeof report), .answer);
    return 0;
}
