#include "cases/kernels/chance.h"

enum { LANE_EDGES = 8 };

static const uint8_t edge_byte[LANE_EDGES] = {
    0x00, 0x01, 0x7F, 0x80, 0x81, 0xFE, 0xFF, 0x10
};

static const uint16_t edge_half[LANE_EDGES] = {
    0x0000, 0x0001, 0x7FFF, 0x8000, 0x8001, 0xFFFE, 0xFFFF, 0x00FF
};

const uint32_t edges[EDGES] = {
    0x00000000, 0x00000001, 0x00000002, 0x0000001F, 0x00000020, 0x0000007F,
    0x00000080, 0x000000FF, 0x00007FFF, 0x00008000, 0x0000FFFF, 0x00010000,
    0x007F80FF, 0x7F7F7F7F, 0x7FFFFFFF, 0x80000000, 0x80000001, 0x80808080,
    0x80008000, 0xFF00FF00, 0xFF807F00, 0xFFFF7FFF, 0xFFFFFFFE, 0xFFFFFFFF
};

/* splitmix64's last step, so that seeds 1, 2, 3 have nothing in common. */
struct chance chance_of(uint64_t seed)
{
    uint64_t z = seed + 0x9E3779B97F4A7C15u;

    z = (z ^ (z >> 30)) * 0xBF58476D1CE4E5B9u;
    z = (z ^ (z >> 27)) * 0x94D049BB133111EBu;
    z ^= z >> 31;
    return (struct chance){ z != 0 ? z : 1 };
}

/* xorshift64* */
uint32_t any_word(struct chance *c)
{
    c->state ^= c->state >> 12;
    c->state ^= c->state << 25;
    c->state ^= c->state >> 27;
    return (uint32_t)((c->state * 0x2545F4914F6CDD1Du) >> 32);
}

uint32_t below(struct chance *c, uint32_t n)
{
    return (uint32_t)(((uint64_t)any_word(c) * n) >> 32);
}

int32_t between(struct chance *c, int32_t low, int32_t high)
{
    return low + (int32_t)below(c, (uint32_t)(high - low) + 1);
}

int mille(struct chance *c, uint32_t n)
{
    return below(c, 1000) < n;
}

uint32_t edge_word(struct chance *c)
{
    uint32_t edge = edges[below(c, EDGES)];

    switch (below(c, 8)) {
    case 0:
        return any_word(c);
    case 1: /* a single bit */
        return (uint32_t)1 << below(c, 32);
    case 2:
        return below(c, 70);
    case 3:
        return edge + (uint32_t)between(c, -2, 2);
    default:
        return edge;
    }
}

uint32_t edge_lanes(struct chance *c, uint32_t size)
{
    uint32_t word = 0;

    for (uint32_t low = 0; low < 32; low += 8 * size) {
        uint32_t way = below(c, LANE_EDGES);
        word |= (uint32_t)(size == 1 ? edge_byte[way] : edge_half[way]) << low;
    }
    return word;
}

void edge_bytes(struct chance *c, uint8_t *bytes, size_t length)
{
    size_t i = 0;

    while (i < length) {
        uint32_t way = below(c, 3);
        uint32_t word = way == 0 ? any_word(c) : edge_word(c);

        for (uint32_t b = 0; b < 4 && i < length; b++, i++)
            bytes[i] = way == 1 ? edge_byte[below(c, LANE_EDGES)]
                                : (uint8_t)(word >> (8 * b));
    }
}
