/* Editions, and numbers of slots and targets at the edges of either: where they
 * go round, and half the range apart. */
#ifndef EDITIONS_H
#define EDITIONS_H

#include "cases/kernels/chance.h"
#include "device/parts.h"

/* By how much a slot may be past a target, as a 32-bit number: the edges. */
enum { APARTS = 8 };
extern const uint32_t aparts[APARTS];

/* 1 or 2, somewhat more often 2. */
uint32_t any_edition(struct chance *c);
/* A word for the image that is neither: it is read as 1. */
uint32_t odd_edition(struct chance *c);

/* For a slot: mostly next to where numbers go round, else next to half of
 * them. */
uint32_t edged_number(struct chance *c);
/* For all slots of a device that is made. */
uint32_t first_number(struct chance *c);

/* A target that the slot is past by 0 or 1, half the range, all of it, or
 * nearly so: one that is met, or one that is not. A full slot of edition 1
 * meets all: its target is then what it holds. */
uint32_t edged_target(struct chance *c, const struct ind_device *device,
                      uint32_t slot, int met);

#endif
