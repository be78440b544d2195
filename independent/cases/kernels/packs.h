/* Packs laid out from words, and packs that are sound, or faulty in one way or
 * another. */
#ifndef PACKS_H
#define PACKS_H

#include "cases/kernels/chance.h"
#include "device/device.h"

/* A little more than a device takes, so that a pack can be too long. */
enum {
    PACK_KERNELS_MOST = IND_KERNELS_MOST + 1,
    PACK_CODE_MOST = IND_CODE_MOST + 16, /* words */
    PACK_BYTES_BEHIND = 8,
    PACK_MOST = IND_PACK_LEAST + IND_PAIR_BYTES * PACK_KERNELS_MOST
              + 4 * PACK_CODE_MOST + PACK_BYTES_BEHIND /* bytes */
};

/* Lays a pack out: returns its length. */
uint32_t lay_pack(uint8_t *pack, uint32_t kernels, const uint32_t *first,
                  const uint32_t *words, const uint32_t *code,
                  uint32_t code_words);

/* Writes a pack of PACK_MOST bytes at most and gives its length. */
uint32_t draw_pack(struct chance *c, uint8_t *pack);

/* More often than not cuts, lengthens or changes a pack; gives its length
 * now. */
uint32_t damage_pack(struct chance *c, uint8_t *pack, uint32_t length);

#endif
