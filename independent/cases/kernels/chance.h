/* Numbers from a seed: the same on every machine. */
#ifndef CHANCE_H
#define CHANCE_H

#include <stddef.h>
#include <stdint.h>

struct chance {
    uint64_t state; /* never 0 */
};

struct chance chance_of(uint64_t seed);
uint32_t any_word(struct chance *c);
/* 0 to n - 1; n is not 0. */
uint32_t below(struct chance *c, uint32_t n);
/* low to high, both among them. */
int32_t between(struct chance *c, int32_t low, int32_t high);
/* True in so many of 1,000 cases. */
int mille(struct chance *c, uint32_t n);
/* A word whose arithmetic has an edge, or lies near one. */
uint32_t edge_word(struct chance *c);
/* A word of lanes of 1 or 2 bytes, each at an edge of its own. */
uint32_t edge_lanes(struct chance *c, uint32_t size);
/* Bytes with edges at every width: words, lanes, small numbers, noise. */
void edge_bytes(struct chance *c, uint8_t *bytes, size_t length);

enum { EDGES = 24 };
extern const uint32_t edges[EDGES];

#endif
