#include "cases/copies.h"

#include <stdlib.h>
#include <string.h>

#include "cases/lines.h"
#include "cases/orders.h"

/* Of a COPY_BUFFER. Sides that touch share no word. */
enum lie {
    ITSELF, ONE_HIGHER, HIGHER, ONE_LOWER, LOWER, TOUCHING, APART,
    LIES
};

static const char *const lie_names[LIES] = {
    "onto itself", "one word higher, overlapping",
    "some words higher, overlapping", "one word lower, overlapping",
    "some words lower, overlapping", "touching", "apart"
};

/* Of a BLIT: nine ways to share a word, by rows, then by columns, then none. */
enum { DIRECTIONS = 9, BETWEEN = DIRECTIONS, BLIT_APART, WAYS };

static const char *const way_names[WAYS] = {
    "up and left", "up", "up and right", "left", "onto itself", "right",
    "down and left", "down", "down and right",
    "rows between the other side's, sharing no word", "apart"
};

/* Of a BLIT that shares a word, not onto itself. */
enum sign {
    LESS_THAN_ROW, ROUND_ROW_END, WHOLE_ROWS, ROWS_AND_PART, ACROSS_TWO,
    FULL_ROWS, ONE_WORD,
    SIGNS
};

static const char *const sign_names[SIGNS] = {
    "by less than a row's width",
    "by less than a row's width, round the end of a row of the window",
    "by whole rows",
    "by a row's width or more, and not by whole rows",
    "a row across two rows of the other side",
    "rows as long as the stride",
    "one word shared"
};

/* Orders that are wrong for some copies. The first two are all that
 * COPY_BUFFER's one row has. */
enum { ORDERS = 4, ROW_ORDERS = 2 };

static const struct order orders[ORDERS] = { {0, 0}, {1, 1}, {0, 1}, {1, 0} };

static const char *const order_names[ORDERS] = {
    "from the first word on", "from the last word on",
    "rows from the first, each from its last word",
    "rows from the last, each from its first word"
};

static struct {
    uint64_t lie[LIES], way[WAYS], sign[SIGNS];
    uint64_t copy_order[ROW_ORDERS], blit_order[ORDERS];
} count;

/* ---- how the sides lie ---- */

/* The destination lies dy rows below the source and dx words to its right:
 * destination minus source is dy times the stride and dx words. */
struct move {
    int32_t dx, dy;
};

static int32_t words_apart(const struct sides *sides)
{
    return ((int32_t)sides->dst - (int32_t)sides->src) / WORD;
}

static int32_t absolute(int32_t number)
{
    return number < 0 ? -number : number;
}

/* Moves by which some word of the destination is one of the source: none, one,
 * or two, whose dx are a stride apart. The first, of the smaller dx, tells the
 * direction. */
static int shared_moves(const struct sides *sides, struct move moves[2])
{
    int32_t stride = (int32_t)(sides->stride / WORD);
    int32_t apart = words_apart(sides);
    int32_t rows = apart / stride - (apart % stride < 0); /* rounded down */
    int number = 0;

    for (int32_t dy = rows; dy <= rows + 1; dy++) {
        const struct move move = { apart - dy * stride, dy };
        if (absolute(move.dx) < (int32_t)sides->size.width
            && absolute(dy) < (int32_t)sides->size.height)
            moves[number++] = move;
    }
    if (number == 2 && absolute(moves[1].dx) < absolute(moves[0].dx)) {
        const struct move first = moves[0];
        moves[0] = moves[1];
        moves[1] = first;
    }
    return number;
}

static enum lie lie_of(const struct sides *sides)
{
    int32_t apart = words_apart(sides);
    int32_t len = (int32_t)sides->size.width;

    if (apart == 0)
        return ITSELF;
    if (absolute(apart) >= len)
        return absolute(apart) == len ? TOUCHING : APART;
    if (apart > 0)
        return apart == 1 ? ONE_HIGHER : HIGHER;
    return apart == -1 ? ONE_LOWER : LOWER;
}

static int direction(int32_t number)
{
    return (number > 0) - (number < 0);
}

static int way_of(const struct sides *sides, const struct move *moves,
                  int number)
{
    if (number == 0)
        return spans_meet(sides) ? BETWEEN : BLIT_APART;
    return 3 * (direction(moves[0].dy) + 1) + direction(moves[0].dx) + 1;
}

static void count_signs(const struct sides *sides, const struct move *moves,
                        int number)
{
    int32_t width = (int32_t)sides->size.width;
    int32_t height = (int32_t)sides->size.height;
    int less = absolute(words_apart(sides)) < width;
    int whole = moves[0].dx == 0;

    count.sign[LESS_THAN_ROW] += less;
    count.sign[ROUND_ROW_END] += less
        && sides->dst / sides->stride != sides->src / sides->stride;
    count.sign[WHOLE_ROWS] += whole;
    count.sign[ROWS_AND_PART] += !less && !whole;
    count.sign[ACROSS_TWO] += number == 2;
    count.sign[FULL_ROWS] += WORD * sides->size.width == sides->stride;
    count.sign[ONE_WORD] += number == 1 && absolute(moves[0].dx) == width - 1
        && absolute(moves[0].dy) == height - 1;
}

/* ---- other orders ---- */

/* Whether the copy would have left another memory in this order. */
static int order_shows(const struct served *v, const struct sides *sides,
                       struct order order)
{
    const struct piece *left = &v->after->pieces[PIECE_MEMORY];
    struct ind_window window = window_again(v);

    copy_in_order(&window, sides, order);
    int shows = memcmp(window.memory, left->bytes, left->length) != 0;
    free(window.memory);
    return shows;
}

static void count_orders(const struct served *v, const struct sides *sides,
                         uint64_t *counts, int number)
{
    for (int i = 0; i < number; i++)
        counts[i] += (uint64_t)order_shows(v, sides, orders[i]);
}

static void count_blit(const struct served *v, const struct sides *sides)
{
    struct move moves[2];
    int number = shared_moves(sides, moves);

    count.way[way_of(sides, moves, number)]++;
    if (number != 0 && sides->dst != sides->src)
        count_signs(sides, moves, number);
    count_orders(v, sides, count.blit_order, ORDERS);
}

void copies_done(const struct served *v)
{
    const struct ind_command *command = &v->command;
    struct sides sides = sides_of(command,
                                  &v->device.rings[v->report.ring].frame);

    if (sides.size.width == 0 || sides.size.height == 0)
        return;
    if (command->opcode == BLIT) {
        count_blit(v, &sides);
    } else if (command->opcode == COPY_BUFFER) {
        count.lie[lie_of(&sides)]++;
        count_orders(v, &sides, count.copy_order, ROW_ORDERS);
    }
}

/* ---- the table ---- */

static int named_lines(FILE *out, const char *const *names,
                       const uint64_t *counts, int number)
{
    int missing = 0;

    for (int i = 0; i < number; i++)
        missing += line(out, names[i], counts[i]);
    return missing;
}

int copies_lines(FILE *out)
{
    int missing = 0;

    title(out, "COPY_BUFFERs done, by how the destination lies to the source");
    missing += named_lines(out, lie_names, count.lie, LIES);
    title(out, "BLITs done, by how the destination lies to the source");
    missing += named_lines(out, way_names, count.way, WAYS);
    title(out, "BLITs done that overlap, not onto themselves");
    missing += named_lines(out, sign_names, count.sign, SIGNS);
    title(out, "COPY_BUFFERs that would have left another memory");
    missing += named_lines(out, order_names, count.copy_order, ROW_ORDERS);
    title(out, "BLITs that would have left another memory");
    missing += named_lines(out, order_names, count.blit_order, ORDERS);
    return missing;
}
