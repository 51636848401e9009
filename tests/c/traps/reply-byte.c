/* The reply of a virtual chip is taken for the byte that was read.
 * expected: 1 incompatible type|cannot convert|no viable conversion */
#include "perlovasta.h"

int status_of(uint8_t *chip, size_t chip_len);
int status_of(uint8_t *chip, size_t chip_len) {
#ifdef RIGHT
    perlovasta_reply reply = perlovasta_chip_read(chip, chip_len, PERLOVASTA_REGISTER_I2CSTA);
    return reply.refusal == PERLOVASTA_ACCEPTED ? reply.value : -1;
#else
    uint8_t status = perlovasta_chip_read(chip, chip_len, PERLOVASTA_REGISTER_I2CSTA);
    return status;
#endif
}
