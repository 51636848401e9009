/* What has to hold of a call; where it does not, or a page that is closed is touched, it is said which call it was, and the program ends with 1. */
#ifndef EXPECT_H
#define EXPECT_H

#include <stdbool.h>
#include <stddef.h>

/* A call of this function comes now. */
void expect_call(const char *function);

#define EXPECT(fact) expect((fact), #fact)
void expect(bool fact, const char *words);

/* How many calls there were. */
size_t expect_calls(void);

/* Says which call it was when a page is touched that is closed. */
void expect_faults(void);

#endif
