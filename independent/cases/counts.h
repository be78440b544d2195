/* Counts of commands taken, in the order of an image: a word for each ring,
 * then one for each outcome. They are balanced if the two sums, as 32-bit
 * numbers, are the same. */
#ifndef COUNTS_H
#define COUNTS_H

#include "cases/kernels/chance.h"
#include "device/device.h"

/* Balanced ones: none, few, one of a ring and one of an outcome, any, or such
 * that the next command of ring `lead`, whose outcome is `last` at most, makes
 * them go round. */
void draw_counts(struct chance *c, uint32_t lead, uint32_t last,
                 uint32_t counts[IND_COUNTS]);

/* Changes some of them: mostly they are not balanced then. */
void unbalance(struct chance *c, uint32_t counts[IND_COUNTS]);

#endif
