/* The port: one state that goes on from call to call, with a virtual chip behind it, and states of any content in its place now and then. What each call
   gives and writes is what perlovasta_dock.h says. */
#ifndef PORT_H
#define PORT_H

#include "lent.h"

void port_open(void);
void port_try(lent_place place);

#endif
