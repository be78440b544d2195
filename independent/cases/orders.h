/* A BLIT or COPY_BUFFER made again, its words in an order that is named. */
#ifndef ORDERS_H
#define ORDERS_H

#include "device/parts.h"

/* Both sides of a copy, in bytes but for the size. COPY_BUFFER's words are one
 * row. */
struct sides {
    uint32_t dst, src, stride;
    struct ind_size size;
};

struct order {
    int rows_fall;  /* from the last row up, not from the first down */
    int words_fall; /* each row from its last word */
};

struct sides sides_of(const struct ind_command *command,
                      const struct ind_frame *frame);

/* Whether the two spans, each from a side's first word to its last, share a
 * word. No side is empty. */
int spans_meet(const struct sides *sides);

/* Each word is read when its turn comes, so the order may show. Both sides lie
 * in the window. */
void copy_in_order(const struct ind_window *window, const struct sides *sides,
                   struct order order);

#endif
