/* What the calls met: counts of calls, told as a table. */
#ifndef TALLY_H
#define TALLY_H

#include <stdio.h>

#include "cases/call.h"

/* Counts a call as it was handed over and as the independent device left it. */
void tally_call(const struct call *before, const struct call *after);

/* 1 if the call shows what only a long record holds, a ring or a code as long
 * as it may be with something at its end, and none counted before did. */
int tally_first_full(const struct call *before, const struct call *after);

void tally_print(FILE *out);

/* Lines of the table that stand at 0. */
int tally_missing(void);

#endif
