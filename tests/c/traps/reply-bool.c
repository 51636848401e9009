/* The reply of a virtual chip is taken for yes or no.
 * expected: 1 scalar|could not convert|not contextually convertible */
#include "perlovasta.h"

int enable(uint8_t *chip, size_t chip_len);
int enable(uint8_t *chip, size_t chip_len) {
#ifdef RIGHT
    if (perlovasta_chip_write(chip, chip_len, PERLOVASTA_REGISTER_I2CCON, 0x40).refusal == PERLOVASTA_ACCEPTED)
#else
    if (perlovasta_chip_write(chip, chip_len, PERLOVASTA_REGISTER_I2CCON, 0x40))
#endif
        return 1;
    return 0;
}
