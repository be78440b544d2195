/* Limits of steps. A thread that never ends takes all its steps, so that long
 * limits are few. */
#ifndef LIMITS_H
#define LIMITS_H

#include "cases/kernels/chance.h"
#include "device/device.h"

enum { LIMIT_QUARTER = IND_LIMIT_DEFAULT / 4 }; /* usual, and soon used up */

/* One that a device may have, mostly at an edge. */
uint32_t edged_limit(struct chance *c);
/* One for any kernel: few are short, so that most kernels end. */
uint32_t usual_limit(struct chance *c);
/* One for a kernel that is made to use up its steps: most are short. */
uint32_t exact_limit(struct chance *c);
/* One for a kernel of which one thread stops after a few steps. */
uint32_t late_limit(struct chance *c);
/* Mostly one that no device has; else any word at an edge. */
uint32_t outside_limit(struct chance *c);

#endif
