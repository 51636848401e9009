/* Libraries that are wrong in one thing, WRONG, which the guards must see: the linker puts these in place of the functions of that name, which
   are called as __real_ before. WRONG counts from 1; there is none of a greater number than WRONG_LIBRARIES. */
#include "perlovasta.h"
#include "perlovasta_dock.h"

#define WRONG_LIBRARIES 24

#define JOB_PARAMETERS                                                                                                                         \
    uint8_t kind, uint8_t address, uint8_t n, const uint8_t *data, size_t data_len, uint8_t *destination, size_t destination_len, uint8_t *out, \
        size_t out_len, const uint8_t *script, size_t script_len, uint8_t *report, size_t report_len
#define JOB_ARGUMENTS kind, address, n, data, data_len, destination, destination_len, out, out_len, script, script_len, report, report_len

uint8_t __real_perlovasta_job(JOB_PARAMETERS);
uint8_t __wrap_perlovasta_job(JOB_PARAMETERS);
uint8_t __wrap_perlovasta_job(JOB_PARAMETERS) {
    static volatile uint8_t seen;
    uint8_t answer = __real_perlovasta_job(JOB_ARGUMENTS);
    if (WRONG == 1)
        out[-1] = 0; /* before the beginning of out */
    if (WRONG == 2)
        seen = data[data_len]; /* a look past the end of data */
    if (WRONG == 3)
        ((uint8_t *)(uintptr_t)script)[0] = seen; /* the script is written */
    if (WRONG == 4 && answer == PERLOVASTA_ADDRESS_NACKED && destination_len > 0)
        destination[0]++; /* the accident */
    if (WRONG == 5 && answer == PERLOVASTA_DONE && destination_len > n)
        destination[n]++; /* a byte more than n is handed up */
    if (WRONG == 6 && report_len == PERLOVASTA_REPORT - 1)
        report[0]++; /* a report that is too short is written */
    return answer;
}

uint8_t __real_perlovasta_trace(const uint8_t *trace, size_t trace_len, uint8_t *log, size_t log_len);
uint8_t __wrap_perlovasta_trace(const uint8_t *trace, size_t trace_len, uint8_t *log, size_t log_len);
uint8_t __wrap_perlovasta_trace(const uint8_t *trace, size_t trace_len, uint8_t *log, size_t log_len) {
    uint8_t answer = __real_perlovasta_trace(trace, trace_len, log, log_len);
    if (WRONG == 7 && answer != PERLOVASTA_DONE && log_len > 0)
        log[0]++; /* a trace that is not run is logged */
    return answer;
}

uint32_t __real_perlovasta_chip_read_packed(uint8_t *chip, size_t chip_len, uint8_t reg);
uint32_t __wrap_perlovasta_chip_read_packed(uint8_t *chip, size_t chip_len, uint8_t reg);
uint32_t __wrap_perlovasta_chip_read_packed(uint8_t *chip, size_t chip_len, uint8_t reg) {
    uint32_t packed = __real_perlovasta_chip_read_packed(chip, chip_len, reg);
    if (WRONG == 8 && (packed & 0xFF) == PERLOVASTA_ACCEPTED && reg == PERLOVASTA_REGISTER_I2CDAT)
        chip[20]++; /* a read changes the buffer */
    return packed;
}

uint32_t __real_perlovasta_chip_write_packed(uint8_t *chip, size_t chip_len, uint8_t reg, uint8_t value);
uint32_t __wrap_perlovasta_chip_write_packed(uint8_t *chip, size_t chip_len, uint8_t reg, uint8_t value);
uint32_t __wrap_perlovasta_chip_write_packed(uint8_t *chip, size_t chip_len, uint8_t reg, uint8_t value) {
    uint32_t packed = __real_perlovasta_chip_write_packed(chip, chip_len, reg, value);
    /* what is refused has a value */
    return WRONG == 9 && packed == PERLOVASTA_REFUSAL_LOCKED ? packed | (uint32_t)value << 8 : packed;
}

uint32_t __real_perlovasta_chip_event_packed(uint8_t *chip, size_t chip_len, uint8_t event, uint8_t argument);
uint32_t __wrap_perlovasta_chip_event_packed(uint8_t *chip, size_t chip_len, uint8_t event, uint8_t argument);
uint32_t __wrap_perlovasta_chip_event_packed(uint8_t *chip, size_t chip_len, uint8_t event, uint8_t argument) {
    uint32_t packed = __real_perlovasta_chip_event_packed(chip, chip_len, event, argument);
    if (WRONG == 10 && (packed & 0xFF) == PERLOVASTA_REFUSAL_UNEXPECTED)
        chip[87]++; /* a refusal changes the last place */
    if (WRONG == 11 && event == PERLOVASTA_EVENT_RESET_PIN && chip_len < PERLOVASTA_CHIP)
        return PERLOVASTA_ACCEPTED; /* bytes that are no record are reset */
    return packed;
}

uint8_t __real_perlovasta_chip_job(uint8_t *chip, size_t chip_len, JOB_PARAMETERS);
uint8_t __wrap_perlovasta_chip_job(uint8_t *chip, size_t chip_len, JOB_PARAMETERS);
uint8_t __wrap_perlovasta_chip_job(uint8_t *chip, size_t chip_len, JOB_PARAMETERS) {
    uint8_t answer = __real_perlovasta_chip_job(chip, chip_len, JOB_ARGUMENTS);
    if (WRONG == 12 && answer == PERLOVASTA_NOT_READY && chip_len > 0)
        chip[0]++; /* a chip that is not ready is written */
    if (WRONG == 13 && answer == PERLOVASTA_NOT_READY && chip_len < PERLOVASTA_CHIP)
        return PERLOVASTA_DONE; /* a job on bytes that are no record is done */
    if (WRONG == 14 && answer == PERLOVASTA_UNFINISHED && destination_len > 0)
        destination[0]++; /* bytes of a job that is not done are handed up */
    return answer;
}

uint8_t __real_perlovasta_chip_fresh(uint8_t *chip, size_t chip_len);
uint8_t __wrap_perlovasta_chip_fresh(uint8_t *chip, size_t chip_len);
uint8_t __wrap_perlovasta_chip_fresh(uint8_t *chip, size_t chip_len) {
    uint8_t old = chip_len >= PERLOVASTA_CHIP ? chip[87] : 0;
    uint8_t refusal = __real_perlovasta_chip_fresh(chip, chip_len);
    if (WRONG == 15 && refusal == PERLOVASTA_ACCEPTED)
        chip[87] = old; /* the buffer keeps a byte from before */
    if (WRONG == 16 && refusal != PERLOVASTA_ACCEPTED && chip_len > 0)
        chip[0]++; /* bytes that are too few are written */
    return refusal;
}

uint32_t __real_perlovasta_next(uint8_t *state, size_t state_len, uint8_t value);
uint32_t __wrap_perlovasta_next(uint8_t *state, size_t state_len, uint8_t value);
uint32_t __wrap_perlovasta_next(uint8_t *state, size_t state_len, uint8_t value) {
    if (WRONG == 17 && state_len > PERLOVASTA_STATE)
        state[PERLOVASTA_STATE]++; /* behind the state */
    return __real_perlovasta_next(state, state_len, value);
}

uint8_t __real_perlovasta_take(uint8_t *state, size_t state_len, uint8_t *destination, size_t destination_len);
uint8_t __wrap_perlovasta_take(uint8_t *state, size_t state_len, uint8_t *destination, size_t destination_len);
uint8_t __wrap_perlovasta_take(uint8_t *state, size_t state_len, uint8_t *destination, size_t destination_len) {
    uint8_t kept = state_len > 2 ? state[2] : 0, first = state_len > 80 ? state[80] : 0;
    uint8_t answer = __real_perlovasta_take(state, state_len, destination, destination_len);
    if (WRONG == 18 && answer == PERLOVASTA_FAULT && destination_len > 0)
        destination[0]++; /* bytes are handed up where none are */
    if (WRONG == 19)
        (void)*(volatile const uint8_t *)(state + state_len); /* a look past the end of the state */
    if (WRONG == 20 && answer == PERLOVASTA_DONE)
        state[80] = first; /* a byte that was handed up stays in the state */
    if (WRONG == 21 && answer == PERLOVASTA_NOT_READY && state_len > 2)
        state[2] = (uint8_t)(kept + 1); /* a take that gives nothing changes the state */
    return answer;
}

uint32_t __real_perlovasta_start(uint8_t *state, size_t state_len, uint8_t kind, uint8_t address, uint8_t n, const uint8_t *data, size_t data_len);
uint32_t __wrap_perlovasta_start(uint8_t *state, size_t state_len, uint8_t kind, uint8_t address, uint8_t n, const uint8_t *data, size_t data_len);
uint32_t __wrap_perlovasta_start(uint8_t *state, size_t state_len, uint8_t kind, uint8_t address, uint8_t n, const uint8_t *data, size_t data_len) {
    size_t taken_for = WRONG == 22 && data_len == n - 1u ? n : data_len; /* a byte past the end of data is sent */
    return __real_perlovasta_start(state, state_len, kind, address, n, data, taken_for);
}

uint32_t __real_perlovasta_recover(uint8_t *state, size_t state_len, const uint8_t *settings, size_t settings_len);
uint32_t __wrap_perlovasta_recover(uint8_t *state, size_t state_len, const uint8_t *settings, size_t settings_len);
uint32_t __wrap_perlovasta_recover(uint8_t *state, size_t state_len, const uint8_t *settings, size_t settings_len) {
    size_t pairs_len = WRONG == 23 ? settings_len & ~(size_t)1 : settings_len; /* half a pair is left out */
    return __real_perlovasta_recover(state, state_len, settings, pairs_len);
}

uint32_t __real_perlovasta_give_up(uint8_t *state, size_t state_len);
uint32_t __wrap_perlovasta_give_up(uint8_t *state, size_t state_len);
uint32_t __wrap_perlovasta_give_up(uint8_t *state, size_t state_len) {
    /* nothing is given up: the job goes on */
    return WRONG == 24 ? __real_perlovasta_next(state, state_len, 0) : __real_perlovasta_give_up(state, state_len);
}
