/* Outcomes 0 to 10 at their edges, and the work of each command. */
#include "selftest/stage.h"

#include <string.h>

enum {
    WRITE = 0x01, READ = 0x02, FILL = 0x10, BLIT = 0x11, DISPATCH = 0x20,
    BARRIER = 0x22, COPY = 0x23, FB = 0x30, EMIT = 2, PAYLOAD = 8
};

static int in_table(uint32_t opcode)
{
    return opcode == WRITE || opcode == READ || opcode == FILL || opcode == BLIT
        || opcode == DISPATCH || opcode == BARRIER || opcode == COPY
        || opcode == FB;
}

/* Every opcode with every flag: 1 before 2 before 3 before 4. */
static void header_faults(void)
{
    for (uint32_t opcode = 0; opcode < 256; opcode++) {
        struct stage *stage = stage_new(16);
        for (uint32_t flags = 0; flags < 256; flags++) {
            int payload = (flags & PAYLOAD) != 0;
            uint32_t want = !in_table(opcode) ? 1 : flags > 15 ? 2
                : payload != (opcode == WRITE) ? 3
                : (flags & 6) != 0 ? 4 : 99;
            push(stage, 0, head(opcode, flags, IND_SLOTS, 1), 0, 0, 0);
            if ((flags & 4) != 0)
                push_word(stage, 0, 1000);
            if (payload)
                push_word(stage, 0, 0x11223344);
            uint32_t got = stage_serve(stage);
            CHECK_EQ(got >= 1 && got <= 4 ? got : 99, want);
            if (want != 99) {
                CHECK_EQ(stage->report.irq, 0);
                CHECK_EQ(stage->report.fence, 0);
            }
            CHECK_EQ(stage->device.rings[0].cursor, stage->ring_len[0]);
        }
        stage_free(stage);
    }
}

static void slots_at_their_edges(void)
{
    struct stage *stage = stage_new(16);

    CHECK_EQ(serve(stage, head(BARRIER, EMIT, IND_SLOTS - 1, 0), 0, 0, 0), 0);
    CHECK_EQ(stage->device.slots[IND_SLOTS - 1], 1);
    serve_unchanged(stage, 4, head(BARRIER, EMIT, IND_SLOTS, 0), 0, 0, 0);
    CHECK_EQ(serve(stage, head(BARRIER, 0, IND_SLOTS, 0), 0, 0, 0), 0);
    stage->device.slots[3] = 0xFFFFFFFE;
    CHECK_EQ(serve(stage, head(BARRIER, EMIT, 3, 0), 0, 0, 0), 0);
    CHECK_EQ(stage->report.fence, 0xFFFFFFFF);
    /* 5 comes before 6 to 10, raises no fence and still reports its IRQ. */
    serve_unchanged(stage, 5, head(READ, EMIT | 1, 3, 0), 2, 0, 0);
    CHECK_EQ(stage->report.fence, 0);
    CHECK_EQ(stage->report.irq, 1);
    CHECK_EQ(stage->device.slots[3], 0xFFFFFFFF);
    CHECK_EQ(serve(stage, head(BARRIER, 0, 3, 0), 0, 0, 0), 0);
    stage_free(stage);
}

/* Each argument that is an address, one off; and those that are not. */
static void not_in_fours(void)
{
    struct stage *stage = stage_new(64);

    for (uint32_t off = 1; off < 4; off++) {
        serve_unchanged(stage, 6, head(READ, 0, 0, 0), off, 0, 0);
        serve_unchanged(stage, 6, head(FILL, 0, 0, 0), off, 0, 0);
        serve_unchanged(stage, 6, head(BLIT, 0, 0, 0), off, 0, 0);
        serve_unchanged(stage, 6, head(BLIT, 0, 0, 0), 0, off, 0);
        serve_unchanged(stage, 6, head(COPY, 0, 0, 0), off, 0, 0);
        serve_unchanged(stage, 6, head(COPY, 0, 0, 0), 0, off, 0);
        serve_unchanged(stage, 6, head(WRITE, PAYLOAD, 0, 0), off, 0, 0);
        serve_unchanged(stage, 6, head(FB, 0, 0, 0), 64 + off, 4, 1);
        serve_unchanged(stage, 6, head(FB, 0, 0, 0), 64, off, 1);
        CHECK_EQ(serve(stage, head(READ, 0, 0, 0), 0, off, off), 0);
        CHECK_EQ(serve(stage, head(COPY, 0, 0, 0), 0, 0, off), 0);
        CHECK_EQ(serve(stage, head(BARRIER, 0, 0, off), off, off, off), 0);
    }
    stage_free(stage);
}

static void frames(void)
{
    struct stage *stage = stage_new(64);

    serve_unchanged(stage, 7, head(FILL, 0, 0, 0), 0, 0, 0);
    serve_unchanged(stage, 7, head(BLIT, 0, 0, 0), 0, 0, 0);
    serve_unchanged(stage, 8, head(FB, 0, 0, 0), 64, 0, 1);
    serve_unchanged(stage, 9, head(FB, 0, 0, 0), 60, 0, 0);
    serve_unchanged(stage, 9, head(FB, 0, 0, 0), 60, IND_STRIDE_MOST + 4, 0);
    serve_unchanged(stage, 9, head(FB, 0, 0, 0), 60, 4, 1);
    CHECK_EQ(serve(stage, head(FB, 0, 0, 0), 60, IND_STRIDE_MOST, 0), 0);
    CHECK_EQ(stage->device.rings[0].frame.stride, IND_STRIDE_MOST);
    CHECK_EQ(serve(stage, head(FB, 0, 0, 0), 60, 4, 0), 0);
    CHECK_EQ(stage->device.rings[0].frame.held, 1);
    CHECK_EQ(stage->device.rings[0].frame.base, 60);
    CHECK_EQ(stage->device.rings[0].frame.stride, 4);
    CHECK_EQ(stage->device.rings[1].frame.held, 0);
    CHECK_EQ(serve(stage, head(FILL, 0, 0, 0), 0, wide_high(1, 16), 7), 0);
    serve_unchanged(stage, 7, head(FILL, 0, 0, 0), 0, wide_high(2, 1), 7);
    serve_unchanged(stage, 7, head(BLIT, 0, 0, 0), 0, 0, wide_high(2, 1));
    serve_unchanged(stage, 8, head(FILL, 0, 0, 0), 0, wide_high(1, 17), 7);
    /* An empty rectangle has no bytes, wherever it lies. */
    serve_unchanged(stage, 0, head(FILL, 0, 0, 0), 0xFFFFFFFC, 0xFFFF, 7);
    serve_unchanged(stage, 0, head(FILL, 0, 0, 0), 0xFFFFFFFC, 0xFFFF0000, 7);
    serve_unchanged(stage, 0, head(BLIT, 0, 0, 0), 0xFFFFFFFC, 128, 0xFFFF);
    stage_free(stage);
}

/* An empty window holds no frame, and no byte but an empty transfer at 0. */
static void empty_window(void)
{
    struct stage *stage = stage_new(0);

    serve_unchanged(stage, 8, head(FB, 0, 0, 0), 0, 4, 0);
    serve_unchanged(stage, 0, head(READ, 0, 0, 0), 0, 0, 0);
    serve_unchanged(stage, 8, head(READ, 0, 0, 1), 0, 0, 0);
    serve_unchanged(stage, 8, head(COPY, 0, 0, 0), 0, 4, 0);
    stage_free(stage);
}

static void window_edges(void)
{
    struct stage *stage = stage_new(64);

    CHECK_EQ(serve(stage, head(FB, 0, 0, 0), 0, 16, 0), 0);
    CHECK_EQ(serve(stage, head(READ, 0, 0, 16), 0, 0, 0), 0);
    serve_unchanged(stage, 8, head(READ, 0, 0, 17), 0, 0, 0);
    serve_unchanged(stage, 8, head(READ, 0, 0, 1), 0xFFFFFFFC, 0, 0);
    serve_unchanged(stage, 0, head(READ, 0, 0, 0), 64, 0, 0);
    serve_unchanged(stage, 8, head(READ, 0, 0, 0), 68, 0, 0);
    serve_unchanged(stage, 8, head(COPY, 0, 0, 2), 60, 0, 0);
    serve_unchanged(stage, 8, head(COPY, 0, 0, 2), 0, 60, 0);
    serve_unchanged(stage, 0, head(COPY, 0, 0, 0), 64, 64, 0);
    serve_unchanged(stage, 8, head(COPY, 0, 0, 0), 64, 68, 0);
    serve_unchanged(stage, 8, head(WRITE, PAYLOAD, 0, 0), 68, 0, 0);
    CHECK_EQ(serve(stage, head(FILL, 0, 0, 0), 8, wide_high(2, 4), 1), 0);
    serve_unchanged(stage, 8, head(FILL, 0, 0, 0), 12, wide_high(2, 4), 1);
    serve_unchanged(stage, 8, head(FILL, 0, 0, 0),
                    0xFFFFFFFC, wide_high(1, 1), 1);
    serve_unchanged(stage, 8, head(BLIT, 0, 0, 0), 12, 0, wide_high(2, 4));
    serve_unchanged(stage, 8, head(BLIT, 0, 0, 0), 0, 12, wide_high(2, 4));
    /* The most rows of the longest stride: the end must not wrap at 2^32. */
    CHECK_EQ(serve(stage, head(FB, 0, 0, 0), 0, IND_STRIDE_MOST, 0), 0);
    serve_unchanged(stage, 8, head(FILL, 0, 0, 0),
                    IND_STRIDE_MOST, wide_high(1, IND_EXTENT_MOST), 1);
    serve_unchanged(stage, 8, head(BLIT, 0, 0, 0),
                    0, IND_STRIDE_MOST, wide_high(1, IND_EXTENT_MOST));
    stage_free(stage);
}

static void dispatch_sides(void)
{
    enum { MOST = IND_SIDE_MOST };
    const uint32_t words[] = {WFI};
    struct stage *stage = stage_new(0);

    serve_unchanged(stage, 10, head(DISPATCH, 0, 0, 0), 1, 1, 0);
    pack_one(stage, words, 1);
    CHECK_EQ(serve(stage, head(DISPATCH, 0, 0, 0), 1, 1, 0), 0);
    CHECK_EQ(serve(stage, head(DISPATCH, 0, 0, 9), MOST, MOST, 0), 0);
    serve_unchanged(stage, 10, head(DISPATCH, 0, 0, 0), 0, 1, 0);
    serve_unchanged(stage, 10, head(DISPATCH, 0, 0, 0), 1, 0, 0);
    serve_unchanged(stage, 10, head(DISPATCH, 0, 0, 0), MOST + 1, 1, 0);
    serve_unchanged(stage, 10, head(DISPATCH, 0, 0, 0), 1, MOST + 1, 0);
    serve_unchanged(stage, 10, head(DISPATCH, 0, 0, 0), 1, 1, 1);
    serve_unchanged(stage, 10, head(DISPATCH, 0, 0, 0), 1, 1, 0xFFFFFFFF);
    stage_free(stage);
}

/* The target stands before the payload, and this is the longest command. */
static void write_then_read(void)
{
    enum { LEN = IND_LEN_MOST, BYTES = 4 * LEN };
    struct stage *stage = stage_new(4 + BYTES);

    stage->device.rings[0].window_start = 4;
    stage->device.rings[0].window_length = BYTES;
    push(stage, 0, head(WRITE, PAYLOAD | 4, 5, LEN), 0, 0, 0);
    push_word(stage, 0, 0);
    for (uint32_t i = 0; i < LEN; i++)
        push_word(stage, 0, 0x01020304 * (i + 1));
    CHECK_EQ(stage_serve(stage), 0);
    CHECK_EQ(stage->device.rings[0].cursor, IND_HEADER_BYTES + 4 + BYTES);
    CHECK_EQ(stage->report.words_read, 0);
    CHECK_EQ(get_word(stage->memory), 0);
    CHECK_EQ(get_word(stage->memory + 4), 0x01020304);
    CHECK_EQ(stage->memory[4], 4);
    CHECK_EQ(get_word(stage->memory + BYTES), 0x01020304u * LEN);
    CHECK_EQ(serve(stage, head(READ, 1, 0, 2), BYTES - 8, 0, 0), 0);
    CHECK_EQ(stage->report.words_read, 2);
    CHECK_EQ(stage->report.irq, 1);
    CHECK_EQ(get_word(stage->pipe), 0x01020304u * (LEN - 1));
    CHECK_EQ(get_word(stage->pipe + 4), 0x01020304u * LEN);
    for (uint32_t i = 8; i < IND_PIPE_LEAST; i++)
        CHECK_EQ(stage->pipe[i], 0xAA);
    CHECK_EQ(serve(stage, head(READ, 0, 0, LEN), 0, 0, 0), 0);
    CHECK_EQ(stage->report.words_read, LEN);
    CHECK_EQ(memcmp(stage->pipe, stage->memory + 4, BYTES), 0);
    stage_free(stage);
}

void test_commands(void)
{
    header_faults();
    slots_at_their_edges();
    not_in_fours();
    frames();
    empty_window();
    window_edges();
    dispatch_sides();
    write_then_read();
}
