/* Reasons for a call to be refused, and near misses of them. */
#include "cases/counts.h"
#include "cases/draw.h"
#include "cases/kernels/packs.h"
#include "cases/limits.h"
#include "cases/words.h"
#include "device/image.h"
#include "device/parts.h"

uint8_t *image_word(struct call *call, uint32_t ring, uint32_t word)
{
    return call->pieces[PIECE_DEVICE].bytes
        + (size_t)WORD * (IND_IMAGE_RING_WORDS * ring + word);
}

void put_counts(struct call *call, const uint32_t *counts)
{
    for (uint32_t i = 0; i < IND_COUNTS; i++)
        put_word(image_word(call, 0, IND_IMAGE_TAKEN + i), counts[i]);
}

static void spoil_memory(struct call *call, struct chance *c)
{
    struct piece *memory = &call->pieces[PIECE_MEMORY];

    if (mille(c, 80)) /* just as long as it may be, or longer */
        piece_zeros(memory, IND_MEMORY_MOST + (mille(c, 200) ? 0
                                               : 1 + below(c, 5)));
    else if (memory->length > 8)
        piece_end(memory, memory->length - 1 - below(c, 8));
}

static void spoil_window(struct call *call, struct chance *c)
{
    uint32_t ring = below(c, IND_RINGS);
    uint32_t end = (uint32_t)call->pieces[PIECE_MEMORY].length;
    uint8_t *start = image_word(call, ring, IND_IMAGE_WINDOW_START);
    uint8_t *length = image_word(call, ring, IND_IMAGE_WINDOW_LENGTH);

    switch (below(c, 7)) {
    case 0: /* not in fours, though inside */
        put_word(start, get_word(start) ^ (1 + below(c, 3)));
        break;
    case 1:
        put_word(length, get_word(length) - 1 - below(c, 3));
        break;
    case 2: /* up to the end, or one word past it */
        put_word(length, ((end - get_word(start)) & ~3u) + 4 * below(c, 2));
        break;
    case 3: /* empty, at the end or past it */
        put_word(start, (end & ~3u) + 4 * below(c, 2));
        put_word(length, 0);
        break;
    case 4: /* its end wraps to one inside */
        put_word(start, 0xFFFFFFFCu);
        put_word(length, 4 + 4 * below(c, 3));
        break;
    case 5:
        put_word(start, edge_word(c));
        break;
    default:
        put_word(length, edge_word(c));
        break;
    }
}

static void spoil_marker(struct call *call, struct chance *c)
{
    static const uint32_t markers[4] = { 3, 4, 5, 0xFFFFFFFF };

    put_word(image_word(call, 0, IND_IMAGE_MARKER), markers[below(c, 4)]);
}

static void spoil_limit(struct call *call, struct chance *c)
{
    uint32_t limit = mille(c, 800) ? outside_limit(c) : edged_limit(c);

    put_word(image_word(call, 0, IND_IMAGE_LIMIT), limit);
}

static void spoil_counts(struct call *call, struct chance *c)
{
    uint32_t counts[IND_COUNTS];

    for (uint32_t i = 0; i < IND_COUNTS; i++)
        counts[i] = get_word(image_word(call, 0, IND_IMAGE_TAKEN + i));
    unbalance(c, counts);
    put_counts(call, counts);
}

static void spoil_cursor(struct call *call, struct chance *c)
{
    static const uint32_t cursors[5] = {
        IND_RING_MOST, IND_RING_MOST + 1, IND_RING_MOST + 4, 0x80000000,
        0xFFFFFFFF
    };
    uint32_t ring = below(c, IND_RINGS);
    uint32_t value = cursors[below(c, 5)];

    if (mille(c, 500)) /* at the ring's end, or one past it */
        value = (uint32_t)call->pieces[PIECE_RING + ring].length + below(c, 2);
    put_word(image_word(call, ring, IND_IMAGE_CURSOR), value);
}

/* A frame that is held, or not: then its numbers are not looked at. */
static void spoil_frame(struct call *call, struct chance *c)
{
    static const uint32_t held[4] = { 0, 1, 7, 0xFFFFFFFF };
    static const uint32_t strides[8] = {
        0, 2, IND_STRIDE_LEAST, 8, 10, IND_STRIDE_MOST, IND_STRIDE_MOST + 4,
        0x80000000
    };
    uint32_t ring = below(c, IND_RINGS);
    uint32_t length = get_word(image_word(call, ring, IND_IMAGE_WINDOW_LENGTH));
    uint32_t base = length - 4 + 4 * below(c, 2);

    if (mille(c, 300))
        base = mille(c, 500) ? 2 : edge_word(c);
    put_word(image_word(call, ring, IND_IMAGE_HELD), held[below(c, 4)]);
    put_word(image_word(call, ring, IND_IMAGE_BASE), mille(c, 500) ? 0 : base);
    put_word(image_word(call, ring, IND_IMAGE_STRIDE), strides[below(c, 8)]);
    put_word(image_word(call, ring, IND_IMAGE_FORMAT),
             mille(c, 700) ? 0 : edge_word(c));
}

/* A ring of which something was taken, if there is one. */
static uint32_t taken_ring(struct call *call, struct chance *c)
{
    uint32_t ring = below(c, IND_RINGS);

    for (uint32_t i = 0; i < IND_RINGS; i++) {
        uint32_t other = (ring + i) % IND_RINGS;
        if (get_word(image_word(call, other, IND_IMAGE_CURSOR)) != 0)
            return other;
    }
    return ring;
}

static void spoil_ring(struct call *call, struct chance *c)
{
    uint32_t number = taken_ring(call, c);
    struct piece *ring = &call->pieces[PIECE_RING + number];
    uint32_t cursor = get_word(image_word(call, number, IND_IMAGE_CURSOR));

    if (mille(c, 400)) /* just as long as it may be, or longer */
        piece_zeros(ring, IND_RING_MOST + (mille(c, 300) ? 0
                                           : 1 + below(c, 3)));
    else if (cursor <= ring->length)
        piece_end(ring, cursor - (cursor > 0 && mille(c, 800)));
}

static void spoil_pipe(struct call *call, struct chance *c)
{
    static const uint32_t lengths[6] = {
        0, 4, IND_PIPE_LEAST - 4, IND_PIPE_LEAST - 1, IND_PIPE_LEAST,
        IND_PIPE_LEAST + 1
    };
    struct piece *pipe = &call->pieces[PIECE_PIPE];
    uint32_t length = lengths[below(c, 6)];

    if (length <= pipe->length)
        piece_end(pipe, length);
}

/* As many kernels and words as there may be, one fewer or one more. */
static uint32_t limit_pack(struct chance *c, uint8_t *bytes)
{
    static const uint32_t code[PACK_CODE_MOST];
    uint32_t first[PACK_KERNELS_MOST], words[PACK_KERNELS_MOST];
    uint32_t kernels = IND_KERNELS_MOST - 1 + below(c, 3);
    uint32_t total = IND_CODE_MOST - 1 + below(c, 3);

    if (mille(c, 300))
        kernels = below(c, 3);
    else if (mille(c, 500))
        total = 1 + below(c, 9);
    for (uint32_t i = 0; i < kernels; i++) {
        first[i] = below(c, total);
        words[i] = mille(c, 500) ? 1 : total - first[i];
    }
    if (kernels > 0 && mille(c, 300)) { /* no word, or past the end */
        uint32_t way = below(c, 3);
        words[kernels - 1] = way == 0 ? 0 : total - first[kernels - 1] + 1;
        if (way == 2) { /* the end wraps to one inside */
            first[kernels - 1] = UINT32_MAX;
            words[kernels - 1] = 1 + below(c, 2);
        }
    }
    return lay_pack(bytes, kernels, first, words, code, total);
}

static void spoil_pack(struct call *call, struct chance *c)
{
    static uint8_t bytes[PACK_MOST];
    struct piece *pack = &call->pieces[PIECE_PACK];

    /* most long ones are zeros, and better left alone */
    if (pack->length <= 4096 && mille(c, 400)) {
        piece_end(pack, damage_pack(c, pack->bytes, (uint32_t)pack->length));
        return;
    }
    uint32_t length = mille(c, 600) ? 0 : draw_pack(c, bytes);
    if (length == 0 || length > 4096) /* the long ones of zeros alone */
        length = limit_pack(c, bytes);
    piece_zeros(pack, 0);
    piece_add(pack, bytes, length);
}

/* The ways stand in the order of refusals. Of several, one often comes soon
 * after another there, so that their order shows. */
void spoil_call(struct call *call, struct chance *c)
{
    static void (*const ways[])(struct call *, struct chance *) = {
        spoil_memory, spoil_window, spoil_marker, spoil_frame, spoil_frame,
        spoil_cursor, spoil_counts, spoil_counts, spoil_counts, spoil_limit,
        spoil_limit, spoil_ring, spoil_ring, spoil_pipe, spoil_pipe, spoil_pack,
        spoil_pack, spoil_pack, spoil_pack, spoil_pack, spoil_pack
    };
    const uint32_t all = sizeof ways / sizeof ways[0];
    uint32_t count = mille(c, 600) ? 1 : 2 + below(c, 2);
    uint32_t way = below(c, all);

    for (; count > 0; count--) {
        ways[way](call, c);
        way = (way + (mille(c, 500) ? 2 + below(c, 5) : below(c, all))) % all;
    }
}
