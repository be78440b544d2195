/* Calls of fresh, fresh_with and fresh_edition_2. */
#include "cases/draw.h"
#include "cases/editions.h"
#include "cases/limits.h"
#include "cases/words.h"
#include "device/parts.h"

static uint64_t any_span(struct chance *c)
{
    static const uint64_t spans[8] = {
        0, IND_MEMORY_MOST, IND_MEMORY_MOST + 1, IND_MEMORY_MOST + 4,
        0x100000000u, 0x100000040u, UINT64_MAX, UINT64_MAX - 3
    };

    if (mille(c, 300))
        return spans[below(c, 8)];
    if (mille(c, 100))
        return below(c, IND_MEMORY_MOST + ROOM_BESIDE);
    return mille(c, 800) ? 4 * below(c, 513) : below(c, 2048);
}

/* A pair that just misses being a window of so many bytes. */
static void miss_window(struct chance *c, uint32_t span, uint32_t pair[2])
{
    switch (below(c, 7)) {
    case 0:
        pair[0] += 1 + below(c, 3);
        break;
    case 1:
        pair[1] += 1 + below(c, 3);
        break;
    case 2: /* one word past the end */
        pair[1] = span - pair[0] + 4;
        break;
    case 3: /* empty, and past the end */
        pair[0] = (span & ~3u) + 4;
        pair[1] = 0;
        break;
    case 4: /* its end wraps */
        pair[0] = 0xFFFFFFFCu;
        pair[1] = 4 + 4 * below(c, 3);
        break;
    case 5:
        pair[0] = edge_word(c);
        break;
    default:
        pair[1] = edge_word(c);
        break;
    }
}

/* A window that fits the length's low word too, so that nothing but the length
 * itself is at fault where it is too long. */
static void any_window(struct chance *c, uint64_t span, uint32_t pair[2])
{
    uint32_t low = (uint32_t)span;
    uint32_t words = (low > IND_MEMORY_MOST ? IND_MEMORY_MOST : low) / 4;
    uint32_t first = below(c, words + 1);
    uint32_t count = below(c, words - first + 1);

    if (mille(c, 300)) /* up to the very end */
        count = words - first;
    pair[0] = 4 * first;
    pair[1] = 4 * count;
    if (mille(c, 100))
        miss_window(c, (uint32_t)span, pair);
}

/* A making, with a limit named or with none, of either edition. */
static void start_making(struct call *call, struct chance *c)
{
    uint32_t x = below(c, 1000);

    call_start(call, x < 250 ? CALL_FRESH
                   : x < 550 ? CALL_FRESH_WITH : CALL_FRESH_EDITION_2);
    if (call->kind == CALL_FRESH)
        return;
    uint32_t limit = mille(c, 600) ? edged_limit(c) : outside_limit(c);
    put_word(call->pieces[PIECE_LIMIT].bytes, limit);
    if (call->kind == CALL_FRESH_EDITION_2)
        put_word(call->pieces[PIECE_FIRST].bytes, first_number(c));
}

/* What the image held before does not matter, so it holds something. */
void draw_fresh(struct call *call, struct chance *c)
{
    uint64_t span = any_span(c);
    uint8_t *bytes;

    start_making(call, c);
    bytes = call->pieces[PIECE_SPAN].bytes;
    put_word(bytes, (uint32_t)span);
    put_word(bytes + WORD, (uint32_t)(span >> 32));
    bytes = call->pieces[PIECE_WINDOWS].bytes;
    for (uint32_t i = 0; i < IND_RINGS; i++) {
        uint32_t pair[2];
        any_window(c, span, pair);
        put_word(bytes + IND_PAIR_BYTES * i, pair[0]);
        put_word(bytes + IND_PAIR_BYTES * i + WORD, pair[1]);
    }
    struct piece *image = &call->pieces[PIECE_DEVICE];
    edge_bytes(c, image->bytes, mille(c, 120) ? image->length : below(c, 60));
}
