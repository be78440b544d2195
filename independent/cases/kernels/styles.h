/* Random kernels, each made in some style. */
#ifndef STYLES_H
#define STYLES_H

#include "cases/kernels/chance.h"

enum { KERNEL_WORDS_MOST = 2048 };

/* How a kernel is made. */
enum style {
    STYLE_CAREFUL,  /* mostly runs to its end */
    STYLE_NEAR,     /* the same with words that just miss the list */
    STYLE_WILD,     /* listed words with any fields */
    STYLE_NOISE,    /* any words */
    STYLE_EXACT,    /* ends or stops at a step near the limit */
    STYLE_FAR,      /* long branches */
    STYLE_BRIEF,    /* few instructions, results stored */
    STYLE_MISS,     /* one word that is not listed */
    STYLE_LATE      /* a thread of some number stops, those before it end */
};

/* Writes one kernel, made for a window of this length and a limit of steps, of
 * KERNEL_WORDS_MOST words at most; gives its words. */
uint32_t make_kernel(struct chance *c, enum style style, uint32_t window_length,
                     uint32_t limit, uint32_t *code);

#endif
