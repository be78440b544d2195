#include "cases/kernels/packs.h"

#include "cases/words.h"
#include "device/parts.h"

/* Both counts, all pairs, some code. */
enum {
    HEAD_MOST = IND_PACK_LEAST + IND_PAIR_BYTES * PACK_KERNELS_MOST + 4 * WORD
};

uint32_t lay_pack(uint8_t *pack, uint32_t kernels, const uint32_t *first,
                  const uint32_t *words, const uint32_t *code,
                  uint32_t code_words)
{
    uint8_t *at = pack;

    put_word(at, kernels);
    at += WORD;
    for (uint32_t i = 0; i < kernels; i++, at += IND_PAIR_BYTES) {
        put_word(at, first[i]);
        put_word(at + WORD, words[i]);
    }
    put_word(at, code_words);
    at += WORD;
    for (uint32_t i = 0; i < code_words; i++, at += WORD)
        put_word(at, code[i]);
    return (uint32_t)(at - pack);
}

/* A pair in the code, or at an edge of it. */
static void any_pair(struct chance *c, uint32_t code, uint32_t *first,
                     uint32_t *words)
{
    *first = code == 0 ? 0 : below(c, code);
    *words = code == 0 ? 1 : 1 + below(c, code - *first);
    if (!mille(c, 60))
        return;
    switch (below(c, 8)) {
    case 0:
        *words = 0;
        break;
    case 1: /* up to the very end: sound */
        *words = code - *first;
        break;
    case 2:
        *words = code - *first + 1;
        break;
    case 3: /* wraps to the end */
        *first = 0xFFFFFFFFu;
        *words = code + 1;
        break;
    case 4: /* wraps to 0 */
        *first = 0xFFFFFFFFu;
        *words = 1;
        break;
    case 5:
        *first = code;
        *words = below(c, 2);
        break;
    case 6:
        *first = any_word(c);
        break;
    default:
        *words = edge_word(c);
        break;
    }
}

static uint32_t any_count(struct chance *c)
{
    switch (below(c, 12)) {
    case 0:
        return IND_KERNELS_MOST;
    case 1:
        return IND_KERNELS_MOST + 1;
    case 2:
        return 0;
    default:
        return below(c, IND_KERNELS_MOST + 1);
    }
}

static uint32_t any_code(struct chance *c)
{
    switch (below(c, 30)) {
    case 0:
        return IND_CODE_MOST;
    case 1:
        return IND_CODE_MOST + 1;
    case 2:
        return IND_CODE_MOST - 1;
    case 3:
        return 0;
    default:
        return below(c, 60);
    }
}

uint32_t damage_pack(struct chance *c, uint8_t *pack, uint32_t length)
{
    uint32_t head = length < HEAD_MOST ? length : HEAD_MOST;

    switch (below(c, 10)) {
    case 0: /* cut */
        return length - (length < 9 ? length : below(c, 9));
    case 1: /* its last word cut short */
        return length - (length < WORD ? 0 : 1 + below(c, WORD - 1));
    case 2: /* cut anywhere */
        return below(c, length + 1);
    case 3: /* longer */
        for (uint32_t n = 1 + below(c, PACK_BYTES_BEHIND);
             n > 0 && length < PACK_MOST; n--)
            pack[length++] = (uint8_t)any_word(c);
        return length;
    case 4: /* a bit */
        if (head > 0) {
            uint32_t at = below(c, head);
            pack[at] ^= (uint8_t)(1u << below(c, 8));
        }
        return length;
    case 5: /* a word of its head */
        if (head >= WORD) {
            uint32_t at = below(c, head / WORD) * WORD;
            put_word(pack + at, edge_word(c));
        }
        return length;
    default:
        return length;
    }
}

uint32_t draw_pack(struct chance *c, uint8_t *pack)
{
    static uint32_t code[PACK_CODE_MOST];
    uint32_t first[PACK_KERNELS_MOST], words[PACK_KERNELS_MOST];
    uint32_t kernels = any_count(c), length;

    if (mille(c, 50)) { /* any bytes */
        length = below(c, 80);
        edge_bytes(c, pack, length);
        return length;
    }
    uint32_t n = any_code(c);
    for (uint32_t i = 0; i < kernels; i++)
        any_pair(c, n, &first[i], &words[i]);
    length = lay_pack(pack, kernels, first, words, code, n);
    return damage_pack(c, pack, length);
}
