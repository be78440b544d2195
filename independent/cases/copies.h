/* What the calls met of BLIT and COPY_BUFFER: how their two sides lie. */
#ifndef COPIES_H
#define COPIES_H

#include <stdio.h>

#include "cases/sights.h"

/* Counts a command that is done; one that is no copy, or a copy of no word,
 * counts for nothing. */
void copies_done(const struct served *v);

/* Lines of the table, as in lines.h. */
int copies_lines(FILE *out);

#endif
