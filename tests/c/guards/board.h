/* A board for the port: the virtual chip, and events on its bus that mostly lead on. */
#ifndef BOARD_H
#define BOARD_H

#include "perlovasta_dock.h"

/* Does what the step asks for; the value read. */
uint8_t board_do(perlovasta_step step);

#endif
