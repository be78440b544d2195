/* Single words: listed, or near the list. */
#ifndef MISSES_H
#define MISSES_H

#include "cases/kernels/chance.h"

/* A listed word with any fields. */
uint32_t listed_word(struct chance *c);
/* A word that is listed or just misses it. */
uint32_t near_word(struct chance *c);
/* A word that tinyGPU has and the list of docs/DEVICE.md, Kernels, has not. */
uint32_t left_out_word(struct chance *c);

#endif
