/* Commands taken, counted by ring and by outcome. */
#include "selftest/stage.h"

#include <string.h>

enum {
    WRITE = 0x01, BARRIER = 0x22, EMIT = 2, WAIT = 4, PAYLOAD = 8,
    HEADER = IND_HEADER_BYTES,
    LENGTH = 64 /* of the windows */
};

/* Rings first, then outcomes. */
static uint32_t *count_at(struct stage *stage, uint32_t at)
{
    return at < IND_RINGS ? &stage->device.taken[at]
                          : &stage->device.outcomes[at - IND_RINGS];
}

static uint32_t sum(struct stage *stage, uint32_t first, uint32_t end)
{
    uint32_t all = 0;

    for (uint32_t at = first; at < end; at++)
        all += *count_at(stage, at);
    return all;
}

/* ---- served turns ---- */

/* The next turn serves this ring, with this outcome. */
static struct stage *stage_with(uint32_t ring, uint32_t outcome)
{
    struct stage *stage = stage_new(LENGTH);

    if (outcome >= IND_NOT_LISTED)
        pack_stop(stage, outcome);
    stage->device.slots[FULL_SLOT] = UINT32_MAX;
    stage->device.marker = ring;
    push_outcome(stage, ring, outcome, 0);
    return stage;
}

/* Serves, and checks that two counts have changed and no other. */
static void serve_counted(struct stage *stage, uint32_t ring, uint32_t outcome)
{
    struct stage *before = stage_copy(stage);

    CHECK_EQ(stage_turn(stage), IND_SERVED);
    CHECK_EQ(stage->report.ring, ring);
    CHECK_EQ(stage->report.outcome, outcome);
    for (uint32_t at = 0; at < IND_COUNTS; at++) {
        uint32_t wanted = *count_at(before, at);
        wanted += at == ring || at == IND_RINGS + outcome;
        CHECK_EQ(*count_at(stage, at), wanted);
    }
    stage_free(before);
}

/* From 0, and from numbers that are all different. */
static void from_usual_counts(uint32_t ring, uint32_t outcome)
{
    struct stage *stage = stage_with(ring, outcome);

    serve_counted(stage, ring, outcome);
    CHECK_EQ(stage->device.taken[ring], 1);
    CHECK_EQ(stage->device.outcomes[outcome], 1);
    stage_free(stage);

    stage = stage_with(ring, outcome);
    for (uint32_t at = 0; at < IND_COUNTS; at++)
        *count_at(stage, at) = at < IND_RINGS ? 100 * (at + 1) : at;
    stage->device.outcomes[0] += sum(stage, 0, IND_RINGS)
        - sum(stage, IND_RINGS, IND_COUNTS);
    serve_counted(stage, ring, outcome);
    stage_free(stage);
}

/* The ring's count goes round, or the outcome's, or both. */
static void from_the_largest(uint32_t ring, uint32_t outcome)
{
    uint32_t next_ring = (ring + 1) % IND_RINGS;
    uint32_t next_outcome = (outcome + 1) % IND_OUTCOMES;

    for (uint32_t way = 1; way < 4; way++) {
        struct stage *stage = stage_with(ring, outcome);
        uint32_t *taken = stage->device.taken;
        uint32_t *outcomes = stage->device.outcomes;
        taken[way & 1 ? ring : next_ring] = UINT32_MAX;
        outcomes[way & 2 ? outcome : next_outcome] = UINT32_MAX;
        serve_counted(stage, ring, outcome);
        CHECK_EQ(taken[ring], way & 1 ? 0 : 1);
        CHECK_EQ(outcomes[outcome], way & 2 ? 0 : 1);
        stage_free(stage);
    }
}

/* ---- turns that are not served ---- */

/* An idle turn, and one refused for each reason. */
static void not_counted(uint32_t number)
{
    struct stage *stage = stage_new(LENGTH);

    for (uint32_t i = 0; i < IND_RINGS; i++) {
        stage->device.taken[i] = number;
        stage->device.outcomes[3 * i] = number;
    }
    stage_unserved(stage, IND_IDLE);
    push(stage, 0, head(BARRIER, WAIT, 0, 0), 0, 0, 0);
    push_word(stage, 0, 1);
    stage_unserved(stage, IND_IDLE);
    push(stage, 1, head(BARRIER, 0, 0, 0), 0, 0, 0);
    stage->pack_len = 0;
    stage_unserved(stage, 105);
    stage->pipe_len = 0;
    stage_unserved(stage, 104);
    stage->ring_len[2] = IND_RING_MOST + 1;
    stage_unserved(stage, 103);
    stage->device.marker = 4;
    stage_unserved(stage, 102);
    stage->memory_len = LENGTH - 1;
    stage_unserved(stage, 101);
    stage_free(stage);
}

/* One count is off: refused before 103 to 105 and after 101, whether or not a
 * command is there. One on the other side that is off by as much mends it. */
static void one_off(uint32_t at, uint32_t by)
{
    struct stage *stage = stage_new(LENGTH);
    uint32_t other = at < IND_RINGS ? IND_RINGS + at : at % IND_RINGS;

    *count_at(stage, at) += by;
    stage_unserved(stage, 102);
    push(stage, 2, head(BARRIER, EMIT, 0, 0), 0, 0, 0);
    stage_unserved(stage, 102);
    stage->pipe_len = 0;
    stage->pack_len = 0;
    stage->ring_len[3] = IND_RING_MOST + 1;
    stage_unserved(stage, 102);
    stage->memory_len = LENGTH - 1;
    stage_unserved(stage, 101);
    stage->memory_len = LENGTH;
    *count_at(stage, other) += by;
    stage_unserved(stage, 103);
    stage->ring_len[3] = 0;
    stage->pipe_len = IND_PIPE_LEAST;
    stage->pack_len = IND_PACK_LEAST;
    serve_counted(stage, 2, 0);
    stage_free(stage);
}

/* What is counted twice, in two rings or two outcomes, is off too. */
static void same_side_off(void)
{
    struct stage *stage = stage_new(LENGTH);

    push(stage, 0, head(BARRIER, 0, 0, 0), 0, 0, 0);
    stage->device.taken[0] = stage->device.taken[3] = 1;
    stage_unserved(stage, 102);
    stage->device.outcomes[14] = 1;
    stage_unserved(stage, 102);
    stage->device.outcomes[7] = 1;
    serve_counted(stage, 0, 0);
    stage_free(stage);
}

/* Sums that are the same only modulo 4,294,967,296: no command was counted by
 * outcome, as many as go round were by ring; and the other way. */
static void equal_modulo(void)
{
    for (uint32_t at = 0; at < IND_COUNTS; at++) {
        struct stage *stage = stage_with(1, 0);
        uint32_t next = at < IND_RINGS
            ? (at + 1) % IND_RINGS
            : IND_RINGS + (at - IND_RINGS + 1) % IND_OUTCOMES;
        *count_at(stage, at) = UINT32_MAX;
        *count_at(stage, next) = 1;
        serve_counted(stage, 1, 0);
        stage_free(stage);
    }
}

/* All as large as they may be: each is one below 0, so the sums are 4 and 15
 * below it, 11 apart. */
static void all_largest(void)
{
    struct stage *stage = stage_with(3, 14);

    for (uint32_t at = 0; at < IND_COUNTS; at++)
        *count_at(stage, at) = UINT32_MAX;
    stage_unserved(stage, 102);
    stage->device.taken[0] -= 11;
    serve_counted(stage, 3, 14);
    CHECK_EQ(stage->device.taken[3], 0);
    CHECK_EQ(stage->device.outcomes[14], 0);
    stage_free(stage);
}

/* ---- makings ---- */

static void fresh_counts(uint64_t memory_len, uint32_t limit, uint32_t answer)
{
    const uint32_t windows[IND_RINGS][2] = {{0, 4}, {0, 4}, {0, 4}, {0, 4}};
    struct stage *stage = stage_new(0);

    memset(&stage->device, 0xEE, sizeof stage->device);
    CHECK_EQ(ind_fresh_with(&stage->device, memory_len, windows, limit),
             answer);
    for (uint32_t at = 0; at < IND_COUNTS; at++)
        CHECK_EQ(*count_at(stage, at), 0);
    stage_free(stage);
}

/* ---- a whole job ---- */

/* The commands that stand in a ring before its cursor. */
static uint32_t commands_before(const struct stage *stage, uint32_t ring)
{
    const uint8_t *bytes = stage->ring[ring];
    uint32_t cursor = stage->device.rings[ring].cursor, at = 0, number = 0;

    for (; at < cursor; number++) {
        uint32_t flags = bytes[at + 1], len = bytes[at + 3];
        at += HEADER + (flags & WAIT ? 4 : 0) + (flags & PAYLOAD ? 4 * len : 0);
    }
    CHECK_EQ(at, cursor);
    return number;
}

/* Commands of several sizes and most outcomes; some wait for another ring. */
static void push_job(struct stage *stage)
{
    for (uint32_t n = 0; n < 150; n++) {
        uint32_t ring = (n + n / 7) % IND_RINGS;
        push_outcome(stage, ring, n % IND_BAD_PLACE, 0);
        if (n % 3 == 0) {
            push(stage, ring, head(WRITE, PAYLOAD | EMIT, 1, n % 5), 0, 0, 0);
            for (uint32_t i = n % 5; i > 0; i--)
                push_word(stage, ring, n);
        }
        if (n % 4 == 1) {
            push(stage, ring, head(BARRIER, WAIT, 1, 0), 0, 0, 0);
            push_word(stage, ring, n / 8);
        }
    }
}

static void whole_job(void)
{
    struct stage *stage = stage_new(LENGTH);
    uint32_t turns = 0, told[IND_OUTCOMES] = {0};

    pack_stop(stage, IND_NOT_LISTED);
    stage->device.slots[FULL_SLOT] = UINT32_MAX;
    push_job(stage);
    for (; stage_turn(stage) == IND_SERVED; turns++) {
        told[stage->report.outcome]++;
        for (uint32_t ring = 0; ring < IND_RINGS; ring++)
            CHECK_EQ(stage->device.taken[ring], commands_before(stage, ring));
        for (uint32_t i = 0; i < IND_OUTCOMES; i++)
            CHECK_EQ(stage->device.outcomes[i], told[i]);
        CHECK_EQ(sum(stage, 0, IND_RINGS), turns + 1);
        CHECK_EQ(sum(stage, IND_RINGS, IND_COUNTS), turns + 1);
    }
    CHECK(turns > 150);
    CHECK_EQ(sum(stage, 0, IND_RINGS), turns);
    for (uint32_t i = 0; i < IND_BAD_PLACE; i++)
        CHECK(told[i] > 0);
    stage_free(stage);
}

void test_counts(void)
{
    const uint32_t off[] = {
        1, 2, 0xFF, 0x100, 0xFFFF, 0x10000, 0x7FFFFFFF, 0x80000000, 0xFFFFFFFF
    };

    for (uint32_t i = 0; i < IND_RINGS * IND_OUTCOMES; i++) {
        from_usual_counts(i % IND_RINGS, i / IND_RINGS);
        from_the_largest(i % IND_RINGS, i / IND_RINGS);
    }
    not_counted(0);
    not_counted(5);
    not_counted(UINT32_MAX);
    for (uint32_t i = 0; i < COUNT(off); i++) {
        for (uint32_t at = 0; at < IND_COUNTS; at++)
            one_off(at, off[i]);
    }
    same_side_off();
    equal_modulo();
    all_largest();
    fresh_counts(4, 16384, 0);
    fresh_counts(3, 16384, 101);
    fresh_counts(4, 0, 102);
    whole_job();
}
