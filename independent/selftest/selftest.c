/* The selftest: the worked examples P1 to P12 of docs/DEVICE.md and the
 * errors that are easily made here, the rest by file. */
#include "selftest/stage.h"

#include <stdio.h>

#include "device/job.h"

/* SET_FB base 0, stride 16, then a fill at 4; gives the fill's outcome. */
static uint32_t fill_at_4(struct stage *stage, uint32_t width)
{
    CHECK_EQ(serve(stage, head(0x30, 0, 0, 0), 0, 16, 0), 0);
    return serve(stage, head(0x10, 0, 0, 0), 4, wide_high(width, 3), 0xC0FFEE);
}

static void p1_to_p3(void)
{
    struct stage *p1 = stage_new(64), *p2 = stage_new(40), *p3 = stage_new(64);

    CHECK_EQ(fill_at_4(p1, 2), 0);
    for (uint32_t at = 0; at < 64; at += 4) {
        int filled = at == 4 || at == 8 || at == 20 || at == 24 || at == 36
            || at == 40;
        CHECK_EQ(get_word(p1->memory + at), filled ? 0xC0FFEE : 0);
    }
    CHECK_EQ(fill_at_4(p2, 2), 8);
    CHECK_EQ(fill_at_4(p3, 5), 7);
    for (uint32_t at = 0; at < 40; at += 4)
        CHECK_EQ(get_word(p2->memory + at) | get_word(p3->memory + at), 0);
    stage_free(p1);
    stage_free(p2);
    stage_free(p3);
}

static void p4_to_p7(void)
{
    struct ind_thread thread;

    ind_thread_start(&thread, 0, 0, 1, 1);
    CHECK_EQ(run_word(&thread, 0xFFF00297), IND_GOES_ON);
    CHECK_EQ(thread.scalar[5], 4294967295u);
    CHECK_EQ(run_word(&thread, 0x0052830B), IND_GOES_ON);
    CHECK_EQ(thread.scalar[6], 4294967294u);
    CHECK_EQ(run_word(&thread, 0x0002930B), IND_GOES_ON);
    CHECK_EQ(thread.scalar[6], 1);
    CHECK_EQ(run_word(&thread, 0x0600030B), IND_GOES_ON);
    CHECK_EQ(thread.scalar[6], 32);
    CHECK_EQ(thread.steps, 4);
}

static void p8_and_p9(void)
{
    const uint32_t p8[] = {0xFE502E0D, WFI}, p9[] = {0x0000000E};
    struct stage *stage = stage_new(64);
    struct ind_thread thread;

    pack_one(stage, p8, 2);
    CHECK_EQ(serve(stage, head(0x20, 0, 0, 0), 1, 1, 0), 13);
    pack_one(stage, p9, 1);
    CHECK_EQ(serve(stage, head(0x20, 0, 0, 0), 1, 1, 0), 14);
    stage_free(stage);

    ind_thread_start(&thread, 0, 0, 1, 1);
    while (run_word(&thread, p9[0]) == IND_GOES_ON)
        continue;
    CHECK_EQ(thread.steps, IND_LIMIT_DEFAULT);
    CHECK_EQ(thread.place, 0);
}

static void p10(void)
{
    struct ind_thread thread;

    ind_thread_start(&thread, 0, 0, 1, 1);
    thread.vector[1][2] = 0x010000FF;
    thread.vector[2][2] = 0x01000001;
    CHECK_EQ(run_word(&thread, r_shape(VECTOR, 0, 2, 3, 1, 2)), IND_GOES_ON);
    CHECK_EQ(thread.vector[3][2], 0x02000000);
    CHECK_EQ(run_word(&thread, r_shape(VECTOR, 0, 1, 3, 1, 2)), IND_GOES_ON);
    CHECK_EQ(thread.vector[3][2], 0x02000100);
    for (uint32_t i = 0; i < 4; i++)
        CHECK(i == 2 || thread.vector[3][i] == 0);
}

static void p11(void)
{
    struct stage *stage = stage_new(0);

    stage->device.marker = 1;
    for (uint32_t ring = 0; ring < 4; ring++) {
        push(stage, ring, head(0x22, 0, 0, 0), 0, 0, 0);
        push(stage, ring, head(0x22, 0, 0, 0), 0, 0, 0);
    }
    for (uint32_t i = 0; i < 8; i++) {
        CHECK_EQ(stage_turn(stage), IND_SERVED);
        CHECK_EQ(stage->report.ring, (i + 1) % 4);
        CHECK_EQ(stage->device.marker, (i + 2) % 4);
    }
    CHECK_EQ(stage_turn(stage), IND_IDLE);
    stage_free(stage);
}

static void p12(void)
{
    struct stage *stage = stage_new(0);

    push(stage, 0, head(0x22, 4, 1, 0), 0, 0, 0);
    push_word(stage, 0, 1);
    push(stage, 0, head(0x22, 2, 2, 0), 0, 0, 0);
    push(stage, 1, head(0x22, 4, 2, 0), 0, 0, 0);
    push_word(stage, 1, 1);
    push(stage, 1, head(0x22, 2, 1, 0), 0, 0, 0);
    stage_unserved(stage, IND_IDLE);
    stage_free(stage);
}

/* A BARRIER with a reserved flag, waiting for what never comes: served. */
static void faulty_header_does_not_wait(void)
{
    struct stage *stage = stage_new(0);

    push(stage, 0, head(0x22, 0x14, 7, 0), 0, 0, 0);
    push_word(stage, 0, 1000);
    CHECK_EQ(stage_serve(stage), 2);
    CHECK_EQ(stage->device.rings[0].cursor, 20);
    stage_free(stage);
}

static void failed_command_signals(void)
{
    const uint32_t stop[] = {0};
    struct stage *stage = stage_new(0);

    pack_one(stage, stop, 1);
    CHECK_EQ(serve(stage, head(0x01, 0x0A, 9, 0), 2, 0, 0), 6);
    CHECK_EQ(stage->report.fence, 1);
    CHECK_EQ(serve(stage, head(0x20, 2, 9, 0), 0, 1, 0), 10);
    CHECK_EQ(stage->report.fence, 2);
    CHECK_EQ(serve(stage, head(0x20, 2, 9, 0), 1, 1, 0), 11);
    CHECK_EQ(stage->report.fence, 3);
    CHECK_EQ(stage->device.slots[9], 3);
    stage_free(stage);
}

/* The other tests use these by their names. */
static void numbers_of_the_manual(void)
{
    CHECK_EQ(IND_MEMORY_MOST, 1048576);
    CHECK_EQ(IND_RING_MOST, 65536);
    CHECK_EQ(IND_HEADER_BYTES, 16);
    CHECK_EQ(IND_LEN_MOST, 255);
    CHECK_EQ(IND_PIPE_LEAST, 1020);
    CHECK_EQ(IND_EXTENT_MOST, 65535);
    CHECK_EQ(IND_STRIDE_LEAST, 4);
    CHECK_EQ(IND_STRIDE_MOST, 65536);
    CHECK_EQ(IND_KERNELS_MOST, 16);
    CHECK_EQ(IND_CODE_MOST, 16384);
    CHECK_EQ(IND_SIDE_MOST, 64);
    CHECK_EQ(IND_LIMIT_LEAST, 1);
    CHECK_EQ(IND_LIMIT_MOST, 65536);
    CHECK_EQ(IND_LIMIT_DEFAULT, 16384);
    CHECK_EQ(IND_RINGS, 4);
    CHECK_EQ(IND_SLOTS, 64);
    CHECK_EQ(IND_OUTCOMES, 15);
    CHECK_EQ(IND_INPUT_MOST, 61440);
    CHECK_EQ(IND_JOB_WORDS_MOST, 4096);
}

int main(void)
{
    numbers_of_the_manual();
    p1_to_p3();
    p4_to_p7();
    p8_and_p9();
    p10();
    p11();
    p12();
    /* 0002930B as a shift, and a carry between lanes: P6 and P10 above. 14 for
     * a WFI that is the limit's step: limits.c. */
    faulty_header_does_not_wait();
    failed_command_signals();
    test_commands();
    test_copies();
    test_turns();
    test_calls();
    test_limits();
    test_counts();
    test_editions();
    test_kernels();
    test_lanes();
    test_stops();
    test_replay();
    test_image();
    test_nulls();
    puts("selftest: every check holds");
    return 0;
}
