/* How many of the turns served a command, how many makings made a device, and
 * how many empty pieces were lent as NULL. Two sides that refuse all they are
 * handed agree, and then nothing was compared. */
#ifndef SHARE_H
#define SHARE_H

#include <stdio.h>

#include "cases/call.h"

struct share {
    uint64_t served, all;
    uint64_t made, makings;
    uint64_t nulls, empty;
};

/* Counts a call by its answer and by its empty pieces. */
void share_call(struct share *share, const struct call *after);

/* Tells the share of what is called so, and of makings if there are any; 1 if
 * of each there is at least one, and at least a tenth, else 0. */
int share_enough(const struct share *share, const char *what, FILE *out);

/* The same for the empty pieces, where NULL is lent at all. */
int share_nulls_enough(const struct share *share, FILE *out);

#endif
