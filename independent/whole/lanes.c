/* The part of self.c that has to do with lanes: a dispatch that ran is run
 * again on the memory before, with an error of its sums or differences. What it
 * reports stays, so that the memory alone tells. */
#include <stdlib.h>
#include <string.h>

#include "cases/trace.h"
#include "whole/self.h"

/* The top bit of every lane. */
static uint32_t tops_of(uint32_t size)
{
    return size == 1 ? 0x80808080u : 0x80008000u;
}

static uint32_t wrong_sum(uint32_t size, uint32_t a, uint32_t b, uint32_t right)
{
    uint32_t tops = tops_of(size);
    uint32_t fewer = tops & ~0x80u;
    uint32_t lower = (a & ~tops) + (b & ~tops);

    switch (MUTANT) {
    case 147: /* bytes carry into the next */
        return size == 1 ? a + b : right;
    case 148: /* halves do */
        return size == 2 ? a + b : right;
    case 149: /* the lowest byte alone does */
        return ((a & ~fewer) + (b & ~fewer)) ^ ((a ^ b) & fewer);
    case 150: /* the held-back bits or-ed in */
        return lower | ((a ^ b) & tops);
    case 151: /* not put in */
        return lower;
    default:
        return right;
    }
}

static uint32_t wrong_difference(uint32_t size, uint32_t a, uint32_t b,
                                 uint32_t right)
{
    uint32_t tops = tops_of(size);
    uint32_t lower = (a | tops) - (b & ~tops);

    switch (MUTANT) {
    case 152: /* bytes borrow from the next */
        return size == 1 ? a - b : right;
    case 153: /* halves do */
        return size == 2 ? a - b : right;
    case 154: /* nothing is lent to borrow from */
        return ((a & ~tops) - (b & ~tops)) ^ ((a ^ b) & tops);
    case 155: /* what is lent is not taken away */
        return lower ^ ((a ^ b) & tops);
    case 156: /* the first's top bits alone */
        return lower ^ (~a & tops);
    default:
        return right;
    }
}

static void wrong_step(struct ind_thread *thread,
                       const struct ind_thread *before, uint32_t word)
{
    struct ind_instruction in = ind_decode(word);

    if (in.kind != KIND_VECTOR || in.size == WORD)
        return;
    for (uint32_t i = 0; i < IND_VECTOR_WORDS; i++) {
        uint32_t a = before->vector[in.rs1][i], b = before->vector[in.rs2][i];
        uint32_t *result = &thread->vector[in.rd][i];
        if (in.op == OP_ADD)
            *result = wrong_sum(in.size, a, b, *result);
        else if (in.op == OP_SUB)
            *result = wrong_difference(in.size, a, b, *result);
    }
}

void err_lanes(struct turned *t)
{
    struct taken taken = taken_by(t);
    const struct ind_window window = {
        t->memory, taken.ring.window_start, taken.ring.window_length
    };
    struct ind_kernel kernel;
    struct trace trace;

    /* A memory of no bytes may be NULL, and nothing can be told by it. */
    if (MUTANT < 147 || !ran(t) || t->memory_len == 0)
        return;
    if (!ind_kernel_extent(t->pack, t->pack_len, taken.command.arg2, &kernel))
        abort();
    memcpy(t->memory, memory_before, t->memory_len);
    trace_dispatch(&trace, &kernel, &window, &taken.command, taken.limit,
                   wrong_step);
}
