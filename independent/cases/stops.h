/* What the calls met of kernels that stopped: where they did. */
#ifndef STOPS_H
#define STOPS_H

#include <stdio.h>

#include "cases/sights.h"
#include "cases/trace.h"

/* Counts a dispatch that stopped. */
void stops_served(const struct served *v, const struct trace *trace,
                  const struct ind_kernel *kernel);

/* Lines of the table, as in lines.h. */
int stops_lines(FILE *out);

#endif
