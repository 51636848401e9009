/* A virtual chip: one that goes on from call to call, and bytes of any content in its place now and then. */
#ifndef CHIP_H
#define CHIP_H

#include "lent.h"

void chip_open(void);

/* Some accesses or a job on it. */
void chip_try(lent_place place);

#endif
