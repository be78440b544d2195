/* Inputs of the replay job from a seed: case n of a seed is the same on every
 * machine, and can be drawn alone. */
#ifndef JOBS_H
#define JOBS_H

#include "cases/call.h"

/* The input stands until the next is drawn. */
const struct piece *draw_job(uint64_t seed, uint64_t number);

#endif
