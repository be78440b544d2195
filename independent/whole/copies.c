/* The part of self.c that has to do with copies: one that is done is made again
 * on the memory before, with an error of the order of its words, or of which
 * they are. */
#include <string.h>

#include "cases/orders.h"
#include "whole/self.h"

/* Of a COPY_BUFFER. */
static struct order buffer_order(int higher)
{
    struct order order = {0, higher};

    if (MUTANT == 130) /* from the first word, always: it smears */
        order.words_fall = 0;
    if (MUTANT == 131) /* from the last, always */
        order.words_fall = 1;
    if (MUTANT == 132) /* by the wrong comparison */
        order.words_fall = !higher;
    return order;
}

/* Of a BLIT. */
static struct order blit_order(const struct sides *sides, int higher)
{
    uint32_t up = sides->dst - sides->src, width = WORD * sides->size.width;
    int row = sides->dst / sides->stride > sides->src / sides->stride;
    int column = sides->dst % sides->stride > sides->src % sides->stride;

    switch (MUTANT) {
    case 133: /* from the first word, always: it smears */
        return (struct order){0, 0};
    case 134: /* from the last, always */
        return (struct order){1, 1};
    case 135: /* by the wrong comparison */
        return (struct order){!higher, !higher};
    case 136: /* rows fall where they have to, each row rises */
        return (struct order){higher, 0};
    case 137: /* each row as it has to, rows rise */
        return (struct order){0, higher};
    case 138: /* rows fall */
        return (struct order){1, higher};
    case 139: /* by the rows alone */
        return (struct order){row, row};
    case 140: /* by the columns alone */
        return (struct order){column, column};
    case 141: /* rows by the rows, words by the columns */
        return (struct order){row, column};
    case 142: /* falls only where a row meets itself */
        return (struct order){higher && up < width, higher && up < width};
    default:
        return (struct order){higher, higher};
    }
}

/* Words left out, or too many. */
static void err_words(struct sides *sides, int blit, int higher)
{
    struct ind_size *size = &sides->size;

    if (MUTANT == 143 && !blit && higher) /* the word that goes first */
        size->width--;
    if (MUTANT == 144 && blit && higher) /* the row that goes first */
        size->height--;
    if (MUTANT == 145 && blit) { /* what lies between the rows goes along */
        size->width += sides->stride / WORD * (size->height - 1);
        size->height = 1;
    }
    if (MUTANT == 146 && spans_meet(sides)) /* nothing is copied */
        size->height = 0;
}

void err_copies(struct turned *t)
{
    struct taken taken = taken_by(t);
    struct sides sides = sides_of(&taken.command, &taken.ring.frame);
    const struct ind_window window = {
        t->memory, taken.ring.window_start, taken.ring.window_length
    };
    int blit = taken.command.opcode == BLIT, higher = sides.dst > sides.src;

    if (MUTANT < 130 || MUTANT > 146 || taken.report.outcome != IND_DONE
        || (!blit && taken.command.opcode != COPY_BUFFER)
        || sides.size.width == 0 || sides.size.height == 0)
        return;
    memcpy(t->memory, memory_before, t->memory_len);
    err_words(&sides, blit, higher);
    copy_in_order(&window, &sides, blit ? blit_order(&sides, higher)
                                        : buffer_order(higher));
}
