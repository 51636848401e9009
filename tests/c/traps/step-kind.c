/* The kinds of a job are taken for those of a step.
 * expected: 1 PERLOVASTA_READ_REGISTER.* not handled in switch */
#include "perlovasta_dock.h"

int is_access(perlovasta_step step);
int is_access(perlovasta_step step) {
    switch (perlovasta_kind(step)) {
#ifdef RIGHT
    case PERLOVASTA_WRITE_REGISTER:
    case PERLOVASTA_READ_REGISTER: return 1;
#else
    case PERLOVASTA_WRITE:
    case PERLOVASTA_READ: return 1;
#endif
    case PERLOVASTA_WAIT:
    case PERLOVASTA_PAUSE:
    case PERLOVASTA_OVER: break;
    }
    return 0;
}
