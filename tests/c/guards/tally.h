/* Which numbers were met: so that a guard that meets too little is seen. */
#ifndef TALLY_H
#define TALLY_H

#include <stdint.h>

typedef enum { MET_JOB, MET_CHIP_JOB, MET_REFUSAL, MET_TURN, MET_PORT, MET_TAKE, MET_KINDS } met_kind;

void tally_meet(met_kind kind, uint8_t number);

/* Every number that there is was met; else it is said which was not, and the program ends with 1. */
void tally_check(void);

#endif
