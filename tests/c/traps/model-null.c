/* NULL is lent for every pointer of the model's functions, with length 0. (The right program lends one array for all: it is compiled, and not run.)
 * expected: 33 nonnull */
#include "perlovasta.h"

#ifdef RIGHT
static uint8_t lent[PERLOVASTA_CHIP];
#define LENT lent
#else
#define LENT NULL
#endif

int use(void);
int use(void) {
    int sum = perlovasta_job(0, 0, 0, LENT, 0, LENT, 0, LENT, 0, LENT, 0, LENT, 0);
    sum += perlovasta_trace(LENT, 0, LENT, 0);
    sum += perlovasta_read_job(0, 0, LENT, 0, LENT, 0).answer;
    sum += perlovasta_chip_fresh(LENT, 0);
    sum += perlovasta_chip_read_packed(LENT, 0, 0) != 0;
    sum += perlovasta_chip_write_packed(LENT, 0, 0, 0) != 0;
    sum += perlovasta_chip_event_packed(LENT, 0, 0, 0) != 0;
    sum += perlovasta_chip_read(LENT, 0, 0).refusal;
    sum += perlovasta_chip_write(LENT, 0, 0, 0).refusal;
    sum += perlovasta_chip_event(LENT, 0, 0, 0).refusal;
    sum += perlovasta_chip_job(LENT, 0, 0, 0, 0, LENT, 0, LENT, 0, LENT, 0, LENT, 0, LENT, 0);
    sum += perlovasta_chip_read_job(LENT, 0, 0, 0, LENT, 0, LENT, 0).answer;
    sum += perlovasta_report_answer(LENT) + perlovasta_report_refusal(LENT) + perlovasta_report_count(LENT) + perlovasta_report_sent(LENT);
    sum += perlovasta_report_pairs(LENT) != 0;
    sum += perlovasta_log_reason(LENT, 0) + perlovasta_log_pointer(LENT, 0) + perlovasta_log_armed(LENT, 0);
    return sum;
}
