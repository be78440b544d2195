/* What the calls met of the editions: waits, fences and starting numbers. */
#ifndef FENCES_H
#define FENCES_H

#include <stdio.h>

#include "cases/call.h"

/* Counts a turn, or a making of edition 2, as it was handed over and as the
 * independent device left it. */
void fences_turn(const struct call *before, const struct call *after);
void fences_making(const struct call *after);

/* Lines of the table, as in lines.h. */
int fences_lines(FILE *out);

#endif
