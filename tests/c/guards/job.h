/* Jobs, on a fresh controller and on one in lent bytes: what the call writes is what perlovasta.h says. */
#ifndef JOB_H
#define JOB_H

#include "lent.h"

void job_open(void);

/* One job on a fresh controller. */
void job_try(lent_place place);

/* One job on the controller in these bytes. */
void job_try_on(lent *chip, lent_place place);

#endif
