/* Turns with bytes changed, and turns of any bytes. */
#include "cases/commands.h"
#include "cases/counts.h"
#include "cases/draw.h"
#include "cases/editions.h"
#include "cases/kernels/packs.h"
#include "cases/limits.h"
#include "cases/words.h"
#include "device/image.h"

enum { ONE_KERNEL_HEAD = IND_PACK_LEAST + IND_PAIR_BYTES }; /* bytes */

static void damage_image(struct call *call, struct chance *c)
{
    uint32_t words = mille(c, 700) ? IND_IMAGE_SLOTS : IND_IMAGE_WORDS;
    uint8_t *word = image_word(call, 0, below(c, words));

    if (mille(c, 500)) {
        put_word(word, edge_word(c));
    } else {
        uint32_t at = below(c, WORD);
        word[at] ^= (uint8_t)(1u << below(c, 8));
    }
}

/* Makes another edition of it, or none: that is edition 1. */
static void damage_edition(struct call *call, struct chance *c)
{
    uint32_t edition = mille(c, 700) ? odd_edition(c) : any_edition(c);

    put_word(image_word(call, 0, IND_IMAGE_EDITION), edition);
}

/* Near its head command, where it matters. */
static void damage_ring(struct call *call, struct chance *c)
{
    uint32_t number = below(c, IND_RINGS);
    struct piece *ring = &call->pieces[PIECE_RING + number];
    size_t at = get_word(image_word(call, number, IND_IMAGE_CURSOR));

    at += below(c, IND_HEADER_BYTES + 2 * WORD);
    if (at >= ring->length)
        return;
    if (mille(c, 500))
        ring->bytes[at] = (uint8_t)any_word(c);
    else
        ring->bytes[at] ^= (uint8_t)(1u << below(c, 8));
}

static void damage_ring_end(struct call *call, struct chance *c)
{
    uint32_t number = below(c, IND_RINGS);
    struct piece *ring = &call->pieces[PIECE_RING + number];
    uint8_t noise[24];
    uint32_t count = 1 + below(c, sizeof noise);

    edge_bytes(c, noise, count);
    if (ring->length > 4096) /* its zeros are better left alone */
        return;
    if (mille(c, 500))
        piece_add(ring, noise, count);
    else if (ring->length > count)
        piece_end(ring, ring->length - count);
}

static void damage_code(struct call *call, struct chance *c)
{
    struct piece *pack = &call->pieces[PIECE_PACK];

    if (pack->length >= ONE_KERNEL_HEAD + 2 * WORD && mille(c, 700)) {
        size_t at = ONE_KERNEL_HEAD
            + below(c, (uint32_t)pack->length - ONE_KERNEL_HEAD);
        pack->bytes[at] ^= (uint8_t)(1u << below(c, 8));
    } else {
        piece_end(pack, damage_pack(c, pack->bytes, (uint32_t)pack->length));
    }
}

static void damage_memory(struct call *call, struct chance *c)
{
    struct piece *memory = &call->pieces[PIECE_MEMORY];

    if (memory->length > 16 && memory->length < 4096)
        piece_end(memory, memory->length - below(c, 16));
}

/* Any bytes from the cursor on, an opcode that there is now and then. */
static void scramble_rings(struct call *call, struct chance *c)
{
    static const uint8_t opcodes[4] = { 0x02, 0x20, 0x22, 0x30 };
    uint8_t noise[48];

    for (uint32_t i = 0; i < IND_RINGS; i++) {
        struct piece *ring = &call->pieces[PIECE_RING + i];
        uint32_t cursor = get_word(image_word(call, i, IND_IMAGE_CURSOR));
        uint32_t count = below(c, sizeof noise + 1);
        edge_bytes(c, noise, count);
        if (count > 1 && mille(c, 600)) {
            noise[0] = opcodes[below(c, 4)];
            noise[1] &= 0x17;
        }
        if (cursor <= ring->length) {
            piece_end(ring, cursor);
            piece_add(ring, noise, count);
        }
    }
}

static void any_bytes(struct piece *piece, struct chance *c, uint32_t most)
{
    piece_zeros(piece, below(c, most + 1));
    edge_bytes(c, piece->bytes, piece->length);
}

/* Any bytes at all; half of the time with windows that are inside, mostly with
 * counts whose sums are the same. */
static void draw_noise(struct call *call, struct chance *c)
{
    uint32_t ways = below(c, 16), counts[IND_COUNTS];

    call_start(call, CALL_TURN);
    any_bytes(&call->pieces[PIECE_MEMORY], c, 200);
    for (uint32_t i = 0; i < IND_RINGS; i++)
        any_bytes(&call->pieces[PIECE_RING + i], c, 60);
    any_bytes(&call->pieces[PIECE_PACK], c, 60);
    piece_zeros(&call->pieces[PIECE_PIPE], IND_PIPE_LEAST - 10 + below(c, 20));
    edge_bytes(c, call->pieces[PIECE_DEVICE].bytes, IND_IMAGE_BYTES);
    for (uint32_t i = 0; i < IND_RINGS; i++) {
        if (ways & 1) {
            put_word(image_word(call, i, IND_IMAGE_WINDOW_START), 0);
            put_word(image_word(call, i, IND_IMAGE_WINDOW_LENGTH), 0);
        }
        if (ways & 2) {
            put_word(image_word(call, i, IND_IMAGE_CURSOR), 0);
            put_word(image_word(call, i, IND_IMAGE_HELD), 0);
        }
    }
    if (ways & 4)
        put_word(image_word(call, 0, IND_IMAGE_MARKER), below(c, IND_RINGS));
    if (ways & 8)
        put_word(image_word(call, 0, IND_IMAGE_LIMIT), usual_limit(c));
    if (mille(c, 500))
        put_word(image_word(call, 0, IND_IMAGE_EDITION), any_edition(c));
    if (mille(c, 800)) {
        draw_counts(c, below(c, IND_RINGS), IND_STEPS_SPENT, counts);
        put_counts(call, counts);
    }
}

void draw_damaged(struct call *call, struct chance *c)
{
    static void (*const ways[])(struct call *, struct chance *) = {
        damage_image, damage_image, damage_edition, damage_ring, damage_ring,
        damage_ring, damage_ring_end, damage_code, damage_memory
    };

    if (mille(c, 80)) {
        draw_noise(call, c);
        return;
    }
    if (mille(c, 600))
        draw_structured(call, c);
    else
        draw_edged(call, c);
    if (mille(c, 150))
        scramble_rings(call, c);
    for (uint32_t n = 1 + below(c, 3); n > 0; n--)
        ways[below(c, sizeof ways / sizeof ways[0])](call, c);
}
