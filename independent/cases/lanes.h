/* What the calls met of VADD and VSUB on lanes of 1 and 2 bytes: which lanes
 * carry or borrow, and what becomes of their top bits. */
#ifndef LANES_H
#define LANES_H

#include <stdio.h>

#include "device/parts.h"

enum {
    LANE_ROWS = 4,      /* VADD.I8, VADD.I16, VSUB.I8, VSUB.I16 */
    LANES_MOST = WORD,  /* in a word */
    TOPS = 8            /* both operands', with or without one from below */
};

/* Of one dispatch. */
struct lanes_seen {
    uint8_t out[LANE_ROWS][2][LANES_MOST]; /* nothing, or a carry or borrow */
    uint8_t top[LANE_ROWS][TOPS];
};

/* Looks at a step of this word by a thread that was like this before it; one
 * of another instruction counts for nothing. */
void lanes_step(struct lanes_seen *seen, const struct ind_thread *before,
                uint32_t word);

/* Counts a dispatch that ran. */
void lanes_ran(const struct lanes_seen *seen);

/* Lines of the table, as in lines.h. */
int lanes_lines(FILE *out);

#endif
