/* BLIT and COPY_BUFFER, their sides apart and overlapping, against a model that
 * reads every word of the source before it writes any. */
#include "selftest/stage.h"

enum { BLIT = 0x11, COPY = 0x23, BEFORE = 2, BEHIND = 2 };

/* All in words. COPY_BUFFER's are one row. */
struct copy {
    uint32_t dst, src, width, height, stride;
};

/* The memory as words. */
static uint32_t words[IND_MEMORY_MOST / 4], held[IND_MEMORY_MOST / 4];

/* A window of so many words, with some before and behind it. */
static struct stage *stage_of(uint32_t length)
{
    struct stage *stage = stage_new(4 * (BEFORE + length + BEHIND));

    stage->device.rings[0].window_start = 4 * BEFORE;
    stage->device.rings[0].window_length = 4 * length;
    return stage;
}

static void model(const struct copy *copy)
{
    uint32_t *dst = words + BEFORE + copy->dst;
    const uint32_t *src = words + BEFORE + copy->src;
    uint32_t n = 0;

    for (uint32_t y = 0; y < copy->height; y++)
        for (uint32_t x = 0; x < copy->width; x++)
            held[n++] = src[y * copy->stride + x];
    n = 0;
    for (uint32_t y = 0; y < copy->height; y++)
        for (uint32_t x = 0; x < copy->width; x++)
            dst[y * copy->stride + x] = held[n++];
}

static uint32_t serve_copy(struct stage *stage, uint32_t opcode,
                           const struct copy *copy)
{
    struct ind_ring *ring = &stage->device.rings[0];

    stage->ring_len[0] = ring->cursor = 0;
    if (opcode == COPY)
        return serve(stage, head(COPY, 0, 0, copy->width), 4 * copy->dst,
                     4 * copy->src, 0);
    ring->frame.held = 1;
    ring->frame.stride = 4 * copy->stride;
    return serve(stage, head(BLIT, 0, 0, 0), 4 * copy->dst, 4 * copy->src,
                 wide_high(copy->width, copy->height));
}

/* On a memory of words that are all different. */
static void check_copy(struct stage *stage, uint32_t opcode,
                       const struct copy *copy)
{
    uint32_t all = (uint32_t)stage->memory_len / 4;

    for (uint32_t i = 0; i < all; i++) {
        words[i] = 0x01020305 * (i + 1);
        put_word(stage->memory + 4 * i, words[i]);
    }
    model(copy);
    CHECK_EQ(serve_copy(stage, opcode, copy), 0);
    for (uint32_t i = 0; i < all; i++)
        CHECK_EQ(get_word(stage->memory + 4 * i), words[i]);
}

/* Every distance at which the sides overlap or touch. */
static void buffers(void)
{
    enum { MOST = 9 };
    struct stage *stage = stage_of(3 * MOST);

    for (uint32_t len = 0; len <= MOST; len++) {
        for (uint32_t dst = MOST - len; dst <= MOST + len; dst++) {
            const struct copy copy = {dst, MOST, len, 1, len};
            check_copy(stage, COPY, &copy);
        }
    }
    stage_free(stage);
}

static void longest_buffers(void)
{
    enum { LEN = IND_LEN_MOST };
    static const uint32_t apart[] = {0, 1, 2, 64, 127, 128, LEN - 1, LEN};
    struct stage *stage = stage_of(2 * LEN);

    for (uint32_t i = 0; i < COUNT(apart); i++) {
        const struct copy higher = {apart[i], 0, LEN, 1, LEN};
        const struct copy lower = {0, apart[i], LEN, 1, LEN};
        check_copy(stage, COPY, &higher);
        check_copy(stage, COPY, &lower);
    }
    stage_free(stage);
}

/* Every place of either side in the window. */
static void blits_of_size(struct stage *stage, uint32_t width, uint32_t height,
                          uint32_t stride)
{
    uint32_t length = stage->device.rings[0].window_length / 4;
    uint32_t used = width == 0 || height == 0 ? 0
        : (height - 1) * stride + width;

    for (uint32_t src = 0; src + used <= length; src++) {
        for (uint32_t dst = 0; dst + used <= length; dst++) {
            const struct copy copy = {dst, src, width, height, stride};
            check_copy(stage, BLIT, &copy);
        }
    }
}

/* Every small size. Among the places are all directions; moves by part of a
 * row, by rows, by both; rows that lie between those of the other side, or
 * across two of them; rows as long as the stride; and a move onto itself. */
static void small_blits(void)
{
    enum { STRIDE_MOST = 5, HEIGHT_MOST = 4, LENGTH = 28 };
    struct stage *stage = stage_of(LENGTH);

    for (uint32_t stride = 1; stride <= STRIDE_MOST; stride++)
        for (uint32_t width = 0; width <= stride; width++)
            for (uint32_t height = 0; height <= HEIGHT_MOST; height++)
                blits_of_size(stage, width, height, stride);
    stage_free(stage);
}

/* Rows of the longest stride, and the most rows of the shortest. */
static void large_blits(void)
{
    enum { MOST = IND_MEMORY_MOST / 4, STRIDE = IND_STRIDE_MOST / 4 };
    static const struct copy copies[] = {
        {STRIDE, 0, STRIDE, 14, STRIDE}, {0, STRIDE, STRIDE, 14, STRIDE},
        {STRIDE - 1, 0, STRIDE, 14, STRIDE}, {1, 0, STRIDE - 1, 14, STRIDE},
        {1, 0, 1, IND_EXTENT_MOST, 1}, {0, 1, 1, IND_EXTENT_MOST, 1}
    };
    struct stage *stage = stage_of(MOST - BEFORE - BEHIND);

    for (uint32_t i = 0; i < COUNT(copies); i++)
        check_copy(stage, BLIT, &copies[i]);
    stage_free(stage);
}

/* Worked by hand: rows of four words, numbered from 1. */
static void check_blit(uint32_t dst, uint32_t src, uint32_t width,
                       uint32_t height, const uint32_t want[16])
{
    const struct copy copy = {dst, src, width, height, 4};
    struct stage *stage = stage_new(64);

    for (uint32_t i = 0; i < 16; i++)
        put_word(stage->memory + 4 * i, i + 1);
    CHECK_EQ(serve_copy(stage, BLIT, &copy), 0);
    for (uint32_t i = 0; i < 16; i++)
        CHECK_EQ(get_word(stage->memory + 4 * i), want[i]);
    stage_free(stage);
}

static void by_hand(void)
{
    static const uint32_t down[16] = {
        1, 2, 3, 4, 1, 2, 3, 4, 5, 6, 7, 8, 9, 10, 11, 12
    };
    static const uint32_t down_right[16] = {
        1, 2, 3, 4, 5, 1, 2, 8, 9, 5, 6, 12, 13, 9, 10, 16
    };
    static const uint32_t down_left[16] = {
        1, 2, 3, 4, 2, 3, 7, 8, 6, 7, 11, 12, 10, 11, 15, 16
    };
    static const uint32_t half_a_row[16] = {
        1, 2, 1, 2, 3, 6, 5, 6, 7, 10, 9, 10, 11, 14, 15, 16
    };

    check_blit(4, 0, 4, 3, down);
    check_blit(5, 0, 2, 3, down_right);
    check_blit(4, 1, 2, 3, down_left);
    check_blit(2, 0, 3, 3, half_a_row);
}

void test_copies(void)
{
    by_hand();
    buffers();
    longest_buffers();
    small_blits();
    large_blits();
}
