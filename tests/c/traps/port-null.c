/* NULL is lent for every pointer of the port's functions, with length 0. (The right program lends one array for all: it is compiled, and not run.)
 * expected: 9 nonnull */
#include "perlovasta_dock.h"

#ifdef RIGHT
static uint8_t lent[PERLOVASTA_STATE];
#define LENT lent
#else
#define LENT NULL
#endif

int use(void);
int use(void) {
    int over = perlovasta_start(LENT, 0, 0, 0, 0, LENT, 0) != 0;
    over += perlovasta_recover(LENT, 0, LENT, 0) != 0;
    over += perlovasta_next(LENT, 0, 0) != 0;
    over += perlovasta_give_up(LENT, 0) != 0;
    over += perlovasta_take(LENT, 0, LENT, 0);
    over += perlovasta_take_read(LENT, 0, PERLOVASTA_OVER).answer;
    return over;
}
