/* How deep the stack goes in a call: what lies below it is painted before the call, and as far as the paint is gone it was taken. */
#ifndef DEPTH_H
#define DEPTH_H

#include <stddef.h>

typedef enum { DEPTH_MODEL, DEPTH_PORT, DEPTH_LIBRARIES } depth_library;

/* Right before the call, and right after it, from the function that makes it. */
void depth_paint(void);
void depth_note(depth_library library);

/* The most bytes that a call has taken. */
size_t depth_most(depth_library library);

#endif
