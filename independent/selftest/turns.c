/* Turns: which ring is served, waiting, fences and IRQ. */
#include "selftest/stage.h"

enum {
    BARRIER = 0x22, IRQ = 1, EMIT = 2, WAIT = 4, PAYLOAD = 8,
    HEADER = IND_HEADER_BYTES
};

/* A command is taken only when its last byte is there, faulty or not. */
static void whole_commands(uint32_t opcode, uint32_t flags, size_t size)
{
    struct stage *stage = stage_new(64);

    stage->device.marker = 2;
    push(stage, 0, head(opcode, flags, 0, 3), 0, 0, 0);
    for (size_t length = 0; length < size; length++) {
        stage->ring_len[0] = length;
        stage_unserved(stage, IND_IDLE);
    }
    stage->ring_len[0] = size;
    CHECK_EQ(stage_turn(stage), IND_SERVED);
    CHECK_EQ(stage->device.rings[0].cursor, size);
    CHECK_EQ(stage->device.marker, 1);
    stage_unserved(stage, IND_IDLE);
    stage_free(stage);
}

/* In edition 1 the slot must be at least the target; 2^31 and above are large
 * numbers. */
static void waiting(void)
{
    struct stage *stage = stage_new(0);

    push(stage, 2, head(BARRIER, WAIT | EMIT | IRQ, 8, 0), 0, 0, 0);
    push_word(stage, 2, 0x80000000);
    stage_unserved(stage, IND_IDLE);
    stage->device.slots[8] = 0x7FFFFFFF;
    stage_unserved(stage, IND_IDLE);
    stage->device.slots[8] = 0x80000000;
    CHECK_EQ(stage_turn(stage), IND_SERVED);
    CHECK_EQ(stage->report.ring, 2);
    CHECK_EQ(stage->report.outcome, 0);
    CHECK_EQ(stage->report.fence, 0x80000001);
    CHECK_EQ(stage->report.irq, 1);
    CHECK_EQ(stage->device.marker, 3);
    push(stage, 2, head(BARRIER, WAIT, 0, 0), 0, 0, 0);
    push_word(stage, 2, 0);
    CHECK_EQ(stage_turn(stage), IND_SERVED);
    CHECK_EQ(stage->report.fence, 0);
    CHECK_EQ(stage->report.irq, 0);
    stage_free(stage);
}

/* Rings 0 and 1 share slot 3; a waiting ring is passed over until it may. */
static void one_ring_waits_for_another(void)
{
    const uint32_t order[] = {1, 2, 1, 0, 2};
    struct stage *stage = stage_new(0);

    push(stage, 0, head(BARRIER, WAIT, 3, 0), 0, 0, 0);
    push_word(stage, 0, 2);
    push(stage, 1, head(BARRIER, EMIT, 3, 0), 0, 0, 0);
    push(stage, 1, head(BARRIER, EMIT, 3, 0), 0, 0, 0);
    push(stage, 2, head(BARRIER, 0, 0, 0), 0, 0, 0);
    for (uint32_t i = 0; i < 5; i++) {
        if (i == 3) /* from marker 2 on: 2 is empty, 3 is empty, then 0 */
            CHECK_EQ(stage->device.marker, 2);
        if (i == 4)
            push(stage, 2, head(BARRIER, 0, 0, 0), 0, 0, 0);
        CHECK_EQ(stage_turn(stage), IND_SERVED);
        CHECK_EQ(stage->report.ring, order[i]);
    }
    CHECK_EQ(stage->device.slots[3], 2);
    stage_unserved(stage, IND_IDLE);
    stage_free(stage);
}

/* Only the served ring's window and frame are used and changed. */
static void rings_keep_to_their_windows(void)
{
    struct stage *stage = stage_new(64);

    for (uint32_t ring = 0; ring < IND_RINGS; ring++) {
        stage->device.rings[ring].window_start = 16 * ring;
        stage->device.rings[ring].window_length = 16;
        push(stage, ring, head(0x30, 0, 0, 0), 4 * ring, 16, 0);
        push(stage, ring, head(0x10, 0, 0, 0), 4 * ring, wide_high(1, 1),
             ring + 1);
    }
    for (uint32_t turn = 0; turn < 8; turn++) {
        CHECK_EQ(stage_turn(stage), IND_SERVED);
        CHECK_EQ(stage->report.ring, turn % 4);
        CHECK_EQ(stage->report.outcome, 0);
    }
    for (uint32_t i = 0; i < 16; i++)
        CHECK_EQ(get_word(stage->memory + 4 * i),
                 i / 4 == i % 4 ? i / 4 + 1 : 0);
    for (uint32_t ring = 0; ring < IND_RINGS; ring++)
        CHECK_EQ(stage->device.rings[ring].frame.base, 4 * ring);
    stage_free(stage);
}

/* A ring filled to its last byte, and the cursor at its very end. */
static void longest_ring(void)
{
    struct stage *stage = stage_new(0);

    for (uint32_t i = 0; i < IND_RING_MOST / HEADER; i++)
        push(stage, 0, head(BARRIER, EMIT, 0, 0), 0, 0, 0);
    stage->device.rings[0].cursor = IND_RING_MOST - HEADER;
    CHECK_EQ(stage_serve(stage), 0);
    CHECK_EQ(stage->device.rings[0].cursor, IND_RING_MOST);
    stage_unserved(stage, IND_IDLE);
    stage_free(stage);
}

void test_turns(void)
{
    whole_commands(BARRIER, 0, HEADER);
    whole_commands(BARRIER, WAIT, HEADER + 4);
    whole_commands(0x01, PAYLOAD, HEADER + 12);
    whole_commands(0x01, PAYLOAD | WAIT, HEADER + 16);
    whole_commands(BARRIER, PAYLOAD, HEADER + 12);
    whole_commands(0xFF, PAYLOAD | WAIT | 0x80, HEADER + 16);
    waiting();
    one_ring_waits_for_another();
    rings_keep_to_their_windows();
    longest_ring();
}
