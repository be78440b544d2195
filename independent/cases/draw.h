/* The kinds of cases, each in a file of its own. */
#ifndef DRAW_H
#define DRAW_H

#include "cases/call.h"
#include "cases/kernels/chance.h"
#include "cases/scene.h"

void draw_fresh(struct call *call, struct chance *c);
void draw_structured(struct call *call, struct chance *c);
void draw_edged(struct call *call, struct chance *c);
void draw_damaged(struct call *call, struct chance *c);

/* All of a scene, its wishes and the memory's length (0: any) being set. */
void draw_turn(struct scene *s, uint32_t memory_len);

/* Gives a turn one to three reasons to be refused, or near misses of them. */
void spoil_call(struct call *call, struct chance *c);

/* A word of a ring in the image; what stands behind the rings counts from
 * ring 0. */
uint8_t *image_word(struct call *call, uint32_t ring, uint32_t word);

/* Writes counts of commands taken, IND_COUNTS of them, into the image. */
void put_counts(struct call *call, const uint32_t *counts);

/* The numbers that a case is drawn from. */
struct chance case_chance(uint64_t seed, uint64_t number);

#endif
