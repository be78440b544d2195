/* The limit of steps: at the making, in a turn, and at a thread's last step. */
#include "selftest/stage.h"

#include <string.h>

enum { DISPATCH = 0x20, BARRIER = 0x22, KERNEL_MOST = 8 };

static const uint32_t inside[] = {1, 2, 3, 4096, 16384, 65535, 65536};
static const uint32_t outside[] = {0, 65537, 65538, 0x80000000, 0xFFFFFFFF};

/* Four of 16 bytes, of which a memory of 15 holds none. */
static const uint32_t windows[IND_RINGS][2] = {
    {0, 16}, {0, 16}, {0, 16}, {0, 16}
};

/* ---- the making ---- */

static uint32_t make_with(struct ind_device *device, uint64_t memory_len,
                          uint32_t limit)
{
    memset(device, 0xEE, sizeof *device);
    return ind_fresh_with(device, memory_len, windows, limit);
}

/* Whatever is refused, and whatever limit was named, one device comes. */
static void refused_making(uint64_t memory_len, uint32_t limit, uint32_t want)
{
    const struct ind_device empty = {.limit = 16384, .edition = 1};
    struct ind_device device;

    CHECK_EQ(make_with(&device, memory_len, limit), want);
    CHECK(memcmp(&device, &empty, sizeof empty) == 0);
}

static void making(void)
{
    struct ind_device device, unnamed;

    CHECK_EQ(ind_fresh(&unnamed, 16, windows), 0);
    CHECK_EQ(unnamed.limit, 16384);
    for (uint32_t i = 0; i < COUNT(inside); i++) {
        CHECK_EQ(make_with(&device, 16, inside[i]), 0);
        CHECK_EQ(device.limit, inside[i]);
        device.limit = unnamed.limit;
        CHECK(memcmp(&device, &unnamed, sizeof device) == 0);
        refused_making(15, inside[i], 101);
    }
    for (uint32_t i = 0; i < COUNT(outside); i++) {
        refused_making(16, outside[i], 102);
        refused_making(15, outside[i], 101); /* the first of the two */
        refused_making(UINT64_MAX, outside[i], 101);
    }
}

/* ---- turns ---- */

/* A limit outside is refused before 103 to 105 and after 101. */
static void refused_turn(uint32_t limit)
{
    struct stage *stage = stage_new(64);

    push(stage, 0, head(BARRIER, 2, 0, 0), 0, 0, 0);
    stage->device.limit = limit;
    stage_unserved(stage, 102);
    stage->ring_len[1] = IND_RING_MOST + 1;
    stage->pipe_len = 0;
    stage->pack_len = 0;
    stage_unserved(stage, 102);
    stage->memory_len = 63;
    stage_unserved(stage, 101);
    stage_free(stage);
}

/* Served, idle and refused turns keep the limit. */
static void kept_by_turns(uint32_t limit)
{
    const uint32_t ends[] = {WFI}, spins[] = {b_shape(0, 0, 0, 0)};
    struct stage *stage = stage_new(64);

    stage->device.limit = limit;
    CHECK_EQ(serve(stage, head(BARRIER, 3, 0, 0), 0, 0, 0), 0);
    CHECK_EQ(serve(stage, head(0x30, 0, 0, 0), 0, 16, 0), 0);
    CHECK_EQ(serve(stage, head(0xFF, 0, 0, 0), 0, 0, 0), 1);
    pack_one(stage, ends, 1);
    CHECK_EQ(serve(stage, head(DISPATCH, 0, 0, 0), 2, 2, 0), 0);
    pack_one(stage, spins, 1);
    CHECK_EQ(serve(stage, head(DISPATCH, 2, 0, 0), 1, 2, 0), 14);
    CHECK_EQ(stage->report.fence, 2);
    CHECK_EQ(stage->device.limit, limit);
    stage_unserved(stage, IND_IDLE);
    stage->pipe_len = 0;
    stage_unserved(stage, 104);
    CHECK_EQ(stage->device.limit, limit);
    stage_free(stage);
}

/* ---- the last step ---- */

/* A kernel that ends by a WFI, which is step `steps` (1 or more) of its thread:
 * s5 counts down to 0 in rounds of two steps. Gives its words. */
static uint32_t wfi_at(uint32_t steps, uint32_t code[KERNEL_MOST])
{
    uint32_t n = 0, before = steps - 1;

    if (before % 2 == 1)
        code[n++] = MEMBAR;
    before -= before % 2;
    if (before >= 4) { /* LUI and ADDI, then the rounds */
        uint32_t rounds = (before - 2) / 2;
        code[n++] = (rounds + 2048) >> 12 << 12 | 5 << 7 | LUI;
        code[n++] = i_shape(INT_IMM, 0, 5, 5, (int32_t)(rounds & 0xFFF));
        code[n++] = i_shape(INT_IMM, 0, 5, 5, -1);
        code[n++] = b_shape(1, 5, 0, -4);
    } else if (before == 2) {
        code[n++] = MEMBAR;
        code[n++] = MEMBAR;
    }
    code[n++] = WFI;
    return n;
}

/* The outcome of a WFI that is step `steps`, in each of four threads. */
static uint32_t outcome_of_wfi(uint32_t limit, uint32_t steps)
{
    uint32_t code[KERNEL_MOST];
    uint32_t words = wfi_at(steps, code);
    struct stage *stage = stage_new(0);

    pack_one(stage, code, words);
    stage->device.limit = limit;
    uint32_t outcome = serve(stage, head(DISPATCH, 0, 0, 0), 2, 2, 0);
    stage_free(stage);
    return outcome;
}

static void wfi_near_the_limit(uint32_t limit)
{
    if (limit > 1)
        CHECK_EQ(outcome_of_wfi(limit, limit - 1), 0);
    CHECK_EQ(outcome_of_wfi(limit, limit), 0);
    CHECK_EQ(outcome_of_wfi(limit, limit + 1), 14);
    CHECK_EQ(outcome_of_wfi(limit, limit + 2), 14);
}

/* The steps that the kernels above take are those they are made for. */
static void wfi_is_where_it_should_be(void)
{
    for (uint32_t steps = 1; steps < 70000; steps += steps < 20 ? 1 : 4099) {
        uint32_t code[KERNEL_MOST];
        uint8_t bytes[4 * KERNEL_MOST];
        const struct ind_kernel kernel = {0, wfi_at(steps, code), bytes};
        const struct ind_window window = {NULL, 0, 0};
        struct ind_thread thread;
        uint32_t outside;
        for (uint32_t i = 0; i < kernel.words; i++)
            put_word(bytes + 4 * i, code[i]);
        ind_thread_start(&thread, 0, 0, 1, 1);
        CHECK_EQ(ind_run(&thread, &kernel, &window, UINT32_MAX, &outside), 0);
        CHECK_EQ(thread.steps, steps);
    }
}

/* One instruction runs, and its store is kept; then 14 comes before all else:
 * an end, a word that is not listed, running off the end (also of a kernel of
 * that one word) and a bad address. */
static void limit_of_one(void)
{
    const uint32_t second[] = {WFI, 0, MEMBAR, s_shape(2, 0, 0, -4), 0};
    const uint32_t words[] = {2, 2, 2, 2, 1};
    const uint32_t later[] = {0, 11, 12, 13, 12}; /* with steps to spare */

    for (uint32_t i = 0; i < COUNT(second); i++) {
        const uint32_t code[] = {s_shape(2, 0, 3, 0), second[i]};
        struct stage *stage = stage_new(64);
        pack_one(stage, code, words[i]);
        stage->device.limit = 1;
        CHECK_EQ(serve(stage, head(DISPATCH, 2, 0, 0), 3, 5, 0), 14);
        CHECK_EQ(get_word(stage->memory), 5);
        CHECK_EQ(stage->report.fence, 1);
        stage->device.limit = 3;
        CHECK_EQ(serve(stage, head(DISPATCH, 0, 0, 0), 3, 5, 0), later[i]);
        stage_free(stage);
    }
}

/* P9, the branch to itself, takes all the steps that there are. */
static void p9_under(uint32_t limit)
{
    uint8_t code[4];
    const struct ind_kernel kernel = {0, 1, code};
    const struct ind_window window = {NULL, 0, 0};
    struct ind_thread thread;
    struct ind_stop stop;
    uint32_t outside;

    put_word(code, 0x0000000E);
    ind_thread_start(&thread, 0, 0, 1, 1);
    CHECK_EQ(ind_run(&thread, &kernel, &window, limit, &outside), 14);
    CHECK_EQ(thread.steps, limit);
    CHECK_EQ(thread.place, 0);
    CHECK_EQ(ind_dispatch(&kernel, &window, 2, 2, limit, &stop), 14);
}

void test_limits(void)
{
    making();
    wfi_is_where_it_should_be();
    limit_of_one();
    for (uint32_t i = 0; i < COUNT(outside); i++)
        refused_turn(outside[i]);
    for (uint32_t i = 0; i < COUNT(inside); i++) {
        kept_by_turns(inside[i]);
        wfi_near_the_limit(inside[i]);
        p9_under(inside[i]);
    }
}
