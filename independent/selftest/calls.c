/* Whole calls: a fresh device, refusals 101 to 105, packs, and odd states. */
#include "selftest/stage.h"

#include <string.h>

static void fresh_devices(void)
{
    const uint32_t good[IND_RINGS][2] = {{0, 16}, {16, 0}, {8, 8}, {0, 0}};
    const uint32_t bad[6][2] = {
        {0, 20}, {20, 0}, {2, 4}, {0, 6}, {0xFFFFFFFC, 8}, {4, 0xFFFFFFFC}
    };
    struct ind_device device, empty;

    memset(&empty, 0, sizeof empty);
    empty.limit = IND_LIMIT_DEFAULT;
    empty.edition = IND_EDITION_1;
    memset(&device, 0xEE, sizeof device);
    CHECK_EQ(ind_fresh(&device, 16, good), 0);
    CHECK_EQ(device.rings[2].window_start, 8);
    CHECK_EQ(device.rings[2].window_length, 8);
    for (uint32_t i = 0; i < IND_RINGS; i++)
        device.rings[i].window_start = device.rings[i].window_length = 0;
    CHECK_EQ(memcmp(&device, &empty, sizeof device), 0);
    for (uint32_t i = 0; i < 6 * IND_RINGS; i++) {
        uint32_t windows[IND_RINGS][2];
        memcpy(windows, good, sizeof windows);
        memcpy(windows[i % IND_RINGS], bad[i / IND_RINGS], sizeof windows[0]);
        memset(&device, 0xEE, sizeof device);
        CHECK_EQ(ind_fresh(&device, 16, (const uint32_t(*)[2])windows), 101);
        CHECK_EQ(memcmp(&device, &empty, sizeof device), 0);
    }
    CHECK_EQ(ind_fresh(&device, IND_MEMORY_MOST, good), 0);
    CHECK_EQ(ind_fresh(&device, IND_MEMORY_MOST + 1, good), 101);
    CHECK_EQ(ind_fresh(&device, UINT64_MAX, good), 101);
    CHECK_EQ(ind_fresh(&device, 17, good), 0);
}

/* A stage whose next turn would be served: an emitting READ_MEM. */
static struct stage *would_serve(void)
{
    struct stage *stage = stage_new(64);

    push(stage, 0, head(0x02, 3, 0, 1), 0, 0, 0);
    return stage;
}

static void refusals_101(void)
{
    struct stage *stage = would_serve();
    struct ind_ring *ring = &stage->device.rings[3];

    stage->memory_len = IND_MEMORY_MOST + 1;
    stage_unserved(stage, 101);
    stage->memory_len = 63;
    stage_unserved(stage, 101);
    stage->memory_len = 64;
    ring->window_length = 68;
    stage_unserved(stage, 101);
    ring->window_length = 62;
    stage_unserved(stage, 101);
    ring->window_length = 4;
    ring->window_start = 62;
    stage_unserved(stage, 101);
    ring->window_start = 0xFFFFFFFC;
    stage_unserved(stage, 101);
    ring->window_start = 68;
    ring->window_length = 0;
    stage_unserved(stage, 101);
    ring->window_start = 64;
    stage->memory_len = IND_MEMORY_MOST;
    CHECK_EQ(stage_turn(stage), IND_SERVED);
    stage_free(stage);
}

static void refusals_102(void)
{
    struct stage *stage = would_serve();
    struct ind_ring *ring = &stage->device.rings[2];
    const struct ind_frame bad[] = {
        {1, 2, 16, 0}, {1, 0, 18, 0}, {1, 64, 16, 0}, {1, 0, 0, 0},
        {1, 0, IND_STRIDE_MOST + 4, 0}, {1, 0, 16, 1}, {0xFFFFFFFF, 0, 16, 1}
    };
    const struct ind_frame good[] = {
        {0, 2, 18, 1}, {1, 60, IND_STRIDE_MOST, 0}, {2, 0, IND_STRIDE_LEAST, 0}
    };

    stage->device.marker = 4;
    stage_unserved(stage, 102);
    stage->device.marker = 0xFFFFFFFF;
    stage_unserved(stage, 102);
    stage->device.marker = 3;
    ring->cursor = IND_RING_MOST + 1;
    stage_unserved(stage, 102);
    ring->cursor = 0;
    for (size_t i = 0; i < sizeof bad / sizeof bad[0]; i++) {
        ring->frame = bad[i];
        stage_unserved(stage, 102);
    }
    for (size_t i = 0; i < sizeof good / sizeof good[0]; i++) {
        ring->frame = good[i];
        stage->device.rings[0].cursor = 0;
        CHECK_EQ(stage_turn(stage), IND_SERVED);
    }
    stage_free(stage);
}

static void refusals_103_to_105(void)
{
    struct stage *stage = would_serve();

    stage->ring_len[1] = IND_RING_MOST + 1;
    stage_unserved(stage, 103);
    stage->ring_len[1] = IND_RING_MOST;
    CHECK_EQ(stage_turn(stage), IND_SERVED);
    stage->ring_len[1] = 0;
    stage->device.rings[0].cursor = 17;
    stage_unserved(stage, 103);
    stage->device.rings[0].cursor = 0;
    stage->pipe_len = IND_PIPE_LEAST - 1;
    stage_unserved(stage, 104);
    stage->pipe_len = IND_PIPE_LEAST;
    stage->pack_len = IND_PACK_LEAST - 1;
    stage_unserved(stage, 105);
    stage->pack_len = IND_PACK_LEAST + 4;
    stage_unserved(stage, 105);
    stage->pack_len = IND_PACK_LEAST;
    CHECK_EQ(stage_turn(stage), IND_SERVED);
    stage_free(stage);
}

/* All five at once, then one mended at a time: the order is 101 to 105. */
static void refusal_order(void)
{
    struct stage *stage = would_serve();

    stage->memory_len = 60;
    stage->device.marker = 4;
    stage->ring_len[3] = IND_RING_MOST + 1;
    stage->pipe_len = 0;
    stage->pack_len = 0;
    stage_unserved(stage, 101);
    stage->memory_len = 64;
    stage_unserved(stage, 102);
    stage->device.marker = 0;
    stage_unserved(stage, 103);
    stage->ring_len[3] = 0;
    stage_unserved(stage, 104);
    stage->pipe_len = IND_PIPE_LEAST;
    stage_unserved(stage, 105);
    stage->pack_len = IND_PACK_LEAST;
    CHECK_EQ(stage_turn(stage), IND_SERVED);
    stage_free(stage);
}

/* Kernels (first, words) twice and a code count, zeros for code. */
static int faulty(const uint32_t *numbers, uint32_t count, uint32_t code_words)
{
    uint8_t bytes[256] = {0};

    for (uint32_t i = 0; i < count; i++)
        put_word(bytes + 4 * i, numbers[i]);
    return ind_pack_faulty(bytes, 4 * (size_t)(count + code_words));
}

static void packs(void)
{
    const uint32_t good[] = {2, 0, 3, 1, 2, 3};
    const uint32_t no_words[] = {2, 0, 3, 1, 0, 3};
    const uint32_t outside[] = {2, 0, 3, 2, 2, 3};
    const uint32_t wrapped[] = {2, 0, 3, 0xFFFFFFFF, 2, 3};
    struct ind_kernel kernel;
    uint8_t bytes[36] = {0};

    CHECK_EQ(faulty(good, 6, 3), 0);
    CHECK_EQ(faulty(good, 6, 2), 1);
    CHECK_EQ(faulty(good, 6, 4), 1);
    CHECK_EQ(faulty(good, 5, 0), 1);
    CHECK_EQ(faulty(no_words, 6, 3), 1);
    CHECK_EQ(faulty(outside, 6, 3), 1);
    CHECK_EQ(faulty(wrapped, 6, 3), 1);
    CHECK_EQ(ind_pack_faulty(NULL, 0), 1);
    for (uint32_t i = 0; i < 6; i++)
        put_word(bytes + 4 * i, good[i]);
    CHECK_EQ(ind_kernel_extent(bytes, 36, 1, &kernel), 1);
    CHECK_EQ(kernel.first, 1);
    CHECK_EQ(kernel.words, 2);
    CHECK_EQ((size_t)(kernel.code - bytes), 28);
    CHECK_EQ(ind_kernel_extent(bytes, 36, 2, &kernel), 0);
    CHECK_EQ(ind_kernel_extent(bytes, 35, 0, &kernel), 0);
}

/* The most kernels and the most code, and one more of each. */
static void largest_pack(void)
{
    struct stage *stage = stage_new(0);

    for (uint32_t more = 0; more < 4; more++) {
        uint32_t kernels = IND_KERNELS_MOST + more % 2;
        uint32_t words = IND_CODE_MOST + more / 2;
        uint8_t *pairs = stage->pack + 4;
        put_word(stage->pack, kernels);
        for (uint32_t i = 0; i < kernels; i++) {
            put_word(pairs + IND_PAIR_BYTES * i, i);
            put_word(pairs + IND_PAIR_BYTES * i + 4, words - i);
        }
        put_word(pairs + IND_PAIR_BYTES * kernels, words);
        stage->pack_len = IND_PACK_LEAST + IND_PAIR_BYTES * kernels + 4 * words;
        CHECK_EQ(stage_turn(stage), more == 0 ? IND_IDLE : 105);
    }
    stage_free(stage);
}

/* No memory and no rings but ring 0: null pointers are never followed. */
static void nothing_lent(void)
{
    const uint32_t words[] = {s_shape(0, 0, 0, 0), WFI};
    const uint8_t *ring[IND_RINGS] = {NULL, NULL, NULL, NULL};
    struct stage *stage = stage_new(0);

    pack_one(stage, words, 2);
    push(stage, 0, head(0x01, 8, 0, 0), 0, 0, 0);
    push(stage, 0, head(0x02, 0, 0, 0), 0, 0, 0);
    push(stage, 0, head(0x23, 0, 0, 0), 0, 0, 0);
    push(stage, 0, head(0x20, 0, 0, 0), 1, 1, 0);
    ring[0] = stage->ring[0];
    for (uint32_t turn = 0; turn < 5; turn++) {
        CHECK_EQ(ind_turn(&stage->device, NULL, 0, ring, stage->ring_len,
                          stage->pack, stage->pack_len, stage->pipe,
                          stage->pipe_len, &stage->report),
                 turn == 4 ? IND_IDLE : IND_SERVED);
        CHECK_EQ(stage->report.outcome, turn == 3 ? 13 : 0);
    }
    CHECK_EQ(ind_turn(&stage->device, NULL, 0, ring, stage->ring_len, NULL, 0,
                      stage->pipe, stage->pipe_len, &stage->report), 105);
    CHECK_EQ(ind_turn(&stage->device, NULL, 0, ring, stage->ring_len, NULL, 0,
                      NULL, 0, &stage->report), 104);
    stage_free(stage);
}

static uint32_t next(uint64_t *seed)
{
    *seed = *seed * 6364136223846793005u + 1442695040888963407u;
    return (uint32_t)(*seed >> 32);
}

/* Numbers that are often near an edge. */
static uint32_t odd_number(uint64_t *seed)
{
    static const uint32_t edges[] = {
        0, 1, 2, 3, 4, 8, 16, 60, 63, 64, 65, 68, 0x10000, 0x10001, 0xFFFFFFFC,
        0xFFFFFFFF
    };
    uint32_t pick = next(seed);

    return pick % 4 == 0 ? next(seed) : edges[pick / 4 % 16];
}

static void odd_command(struct stage *stage, uint32_t ring, uint64_t *seed)
{
    static const uint32_t opcodes[] = {
        0x01, 0x02, 0x10, 0x11, 0x20, 0x22, 0x23, 0x30
    };
    uint32_t flags = next(seed) % 16;
    uint32_t len = next(seed) % 4 == 0 ? next(seed) % 256 : next(seed) % 8;

    if (next(seed) % 4 != 0)
        flags &= 3;
    uint32_t first = head(opcodes[next(seed) % 8], flags, next(seed) % 66, len);
    push(stage, ring, first, odd_number(seed), odd_number(seed),
         odd_number(seed));
    for (uint32_t i = next(seed) % 3; i > 0; i--)
        push_word(stage, ring, odd_number(seed));
}

/* Any state and any bytes: nothing is read or written out of bounds (the
 * sanitizers see to that), and a call not served changes nothing. */
static void odd_states(void)
{
    uint64_t seed = 1;

    for (uint32_t round = 0; round < 300; round++) {
        struct stage *stage = stage_new(64);
        uint32_t code[8];
        for (uint32_t i = 0; i < 8; i++)
            code[i] = next(&seed);
        pack_one(stage, code, 8);
        for (uint32_t i = 0; i < 40; i++)
            odd_command(stage, i % 4, &seed);
        if (round % 3 == 0) { /* one word of the state made odd */
            uint8_t *state = (uint8_t *)&stage->device;
            uint32_t odd = odd_number(&seed);
            uint32_t at = next(&seed) % (sizeof stage->device / 4);
            memcpy(state + 4 * at, &odd, 4);
        }
        struct stage *before = stage_copy(stage);
        while (stage_turn(stage) == IND_SERVED)
            stage_keep(before, stage);
        CHECK(stage_same(before, stage));
        stage_free(before);
        stage_free(stage);
    }
}

void test_calls(void)
{
    fresh_devices();
    refusals_101();
    refusals_102();
    refusals_103_to_105();
    refusal_order();
    packs();
    largest_pack();
    nothing_lent();
    odd_states();
}
