/* What an op does with two words, and with the lanes of two words. */
#include "parts.h"

/* Unsigned sums, differences and products keep the low 32 bits. */
uint32_t ind_compute(enum ind_op op, uint32_t a, uint32_t b)
{
    switch (op) {
    case OP_ADD:
        return a + b;
    case OP_SUB:
        return a - b;
    case OP_MUL:
        return a * b;
    case OP_AND:
        return a & b;
    case OP_OR:
        return a | b;
    case OP_XOR:
        return a ^ b;
    case OP_SHL:
        return a << (b & 31);
    case OP_LSR:
        return a >> (b & 31);
    case OP_ASR:
        return ind_shift_signed(a, b & 31);
    case OP_MIN:
        return ind_signed_below(a, b) ? a : b;
    case OP_MAX:
        return ind_signed_below(a, b) ? b : a;
    case OP_ABS:
        return ind_signed_below(a, 0) ? 0 - a : a;
    case OP_CLZ:
        return ind_leading_zeros(a);
    case OP_CTZ:
        return ind_trailing_zeros(a);
    default: /* the others compare */
        return 0;
    }
}

int ind_compare(enum ind_op op, uint32_t a, uint32_t b)
{
    switch (op) {
    case OP_EQ:
        return a == b;
    case OP_NE:
        return a != b;
    case OP_LT:
        return ind_signed_below(a, b);
    case OP_GE:
        return !ind_signed_below(a, b);
    case OP_LTU:
        return a < b;
    case OP_GEU:
        return a >= b;
    default: /* the others compute */
        return 0;
    }
}

/* ---- lanes of 1 or 2 bytes ---- */

/* The top bit of every lane. */
static uint32_t tops_of(uint32_t size)
{
    return size == 1 ? 0x80808080u : 0x80008000u;
}

/* All lanes' sums at once. The top bits are held back, so that a lane's other
 * bits carry into its top bit and no further; then they are put in without a
 * carry. */
static uint32_t sums(uint32_t tops, uint32_t a, uint32_t b)
{
    uint32_t lower = (a & ~tops) + (b & ~tops);

    return lower ^ ((a ^ b) & tops);
}

/* The same for differences. A top bit of 1 is lent to each lane to borrow from;
 * the last line takes it away again. */
static uint32_t differences(uint32_t tops, uint32_t a, uint32_t b)
{
    uint32_t lower = (a | tops) - (b & ~tops);

    return lower ^ (~(a ^ b) & tops);
}

/* A product has no bits to hold back: each lane alone, cut to its own bits. */
static uint32_t products(uint32_t size, uint32_t a, uint32_t b)
{
    uint32_t width = 8 * size;
    uint32_t mask = 0xFFFFFFFFu >> (32 - width);
    uint32_t result = 0;

    for (uint32_t low = 0; low < 32; low += width) {
        uint32_t lane = ((a >> low) & mask) * ((b >> low) & mask);
        result |= (lane & mask) << low;
    }
    return result;
}

/* size is 1, 2 or 4 bytes; op is ADD, SUB, MUL, AND, OR or XOR. */
uint32_t ind_lanes(enum ind_op op, uint32_t size, uint32_t a, uint32_t b)
{
    if (size == WORD)
        return ind_compute(op, a, b);
    switch (op) {
    case OP_ADD:
        return sums(tops_of(size), a, b);
    case OP_SUB:
        return differences(tops_of(size), a, b);
    case OP_MUL:
        return products(size, a, b);
    default: /* bit by bit: no lane shows */
        return ind_compute(op, a, b);
    }
}
