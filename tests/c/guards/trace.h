/* Traces: what the log gets is what perlovasta.h says, and what a virtual chip replies to the same accesses and events. */
#ifndef TRACE_H
#define TRACE_H

#include "lent.h"

void trace_open(void);
void trace_try(lent_place place);

#endif
