/* Editions of the protocol: makings, waits, fences that go round, and the words
 * of image and report that tell of them. */
#include "selftest/stage.h"

#include <string.h>

#include "device/image.h"

enum {
    BARRIER = 0x22, IRQ = 1, EMIT = 2, WAIT = 4, HEADER = IND_HEADER_BYTES,
    LENGTH = 64, /* of the windows */
    EDITION = 4 * 113, EMITTED = 4 * 6, SLOT = 4 * 28 /* bytes */
};

static const uint32_t edges[] = {
    0, 1, 2, 0x3FFFFFFF, 0x40000000, 0x7FFFFFFE, 0x7FFFFFFF, 0x80000000,
    0x80000001, 0xBFFFFFFF, 0xC0000000, 0xFFFFFFFD, 0xFFFFFFFE, 0xFFFFFFFF
};

/* All but 2 are edition 1. */
static const uint32_t first_editions[] = {
    1, 0, 3, 0xFFFFFFFF, 0x02000000, 0x00000200, 0x80000002
};

static struct stage *stage_of(uint32_t edition)
{
    struct stage *stage = stage_new(LENGTH);

    CHECK_EQ(stage->device.edition, 1);
    stage->device.edition = edition;
    return stage;
}

/* ---- makings ---- */

static const uint32_t windows[IND_RINGS][2] = {
    {0, 16}, {4, 0}, {8, 8}, {0, 0}
};

static void made_2(uint32_t limit, uint32_t first)
{
    struct ind_device device, other;

    memset(&device, 0xEE, sizeof device);
    CHECK_EQ(ind_fresh_edition_2(&device, 16, windows, limit, first), 0);
    CHECK_EQ(device.edition, 2);
    for (uint32_t i = 0; i < IND_SLOTS; i++)
        CHECK_EQ(device.slots[i], first);
    CHECK_EQ(ind_fresh_with(&other, 16, windows, limit), 0);
    CHECK_EQ(other.edition, 1);
    memset(device.slots, 0, sizeof device.slots);
    device.edition = 1;
    CHECK(memcmp(&device, &other, sizeof device) == 0);
}

static void refused_2(uint64_t memory_len, uint32_t limit, uint32_t first,
                      uint32_t want)
{
    const struct ind_device empty = {.limit = 16384, .edition = 1};
    struct ind_device device;

    memset(&device, 0xEE, sizeof device);
    CHECK_EQ(ind_fresh_edition_2(&device, memory_len, windows, limit, first),
             want);
    CHECK(memcmp(&device, &empty, sizeof empty) == 0);
}

static void makings(void)
{
    const uint32_t inside[] = {1, 2, 16384, 65536};
    const uint32_t outside[] = {0, 65537, 0xFFFFFFFF};

    for (uint32_t i = 0; i < COUNT(edges); i++) {
        for (uint32_t k = 0; k < COUNT(inside); k++) {
            made_2(inside[k], edges[i]);
            refused_2(15, inside[k], edges[i], 101);
            refused_2(IND_MEMORY_MOST + 1, inside[k], edges[i], 101);
        }
        for (uint32_t k = 0; k < COUNT(outside); k++) {
            refused_2(16, outside[k], edges[i], 102);
            refused_2(15, outside[k], edges[i], 101); /* the first of the two */
        }
    }
}

/* ---- waits ---- */

/* A ring whose head waits is served, or the device is idle. */
static int is_met(uint32_t edition, uint32_t number, uint32_t target)
{
    struct stage *stage = stage_of(edition);
    int met;

    stage->device.slots[IND_SLOTS - 1] = number;
    push(stage, 2, head(BARRIER, WAIT, IND_SLOTS - 1, 0), 0, 0, 0);
    push_word(stage, 2, target);
    met = stage_turn(stage) == IND_SERVED;
    if (met)
        CHECK_EQ(stage->report.outcome, 0);
    CHECK_EQ(stage->report.emitted, 0);
    CHECK_EQ(stage->device.slots[IND_SLOTS - 1], number);
    stage_free(stage);
    return met;
}

/* From every edge, targets by how much the slot is past them. */
static void half_the_range(void)
{
    const uint32_t met[] = {0, 1, 2, 0x40000000, 0x7FFFFFFE, 0x7FFFFFFF};
    const uint32_t unmet[] = {
        0x80000000, 0x80000001, 0xC0000000, 0xFFFFFFFE, 0xFFFFFFFF
    };

    for (uint32_t i = 0; i < COUNT(edges); i++) {
        for (uint32_t k = 0; k < COUNT(met); k++)
            CHECK(is_met(2, edges[i], edges[i] - met[k]));
        for (uint32_t k = 0; k < COUNT(unmet); k++)
            CHECK(!is_met(2, edges[i], edges[i] - unmet[k]));
    }
}

/* Every edge against every other, in numbers that do not wrap. */
static void every_edge(void)
{
    for (uint32_t i = 0; i < COUNT(edges) * COUNT(edges); i++) {
        uint64_t number = edges[i % COUNT(edges)];
        uint64_t target = edges[i / COUNT(edges)];
        uint64_t past = (number + 4294967296 - target) % 4294967296;
        CHECK_EQ(is_met(2, (uint32_t)number, (uint32_t)target),
                 past < 2147483648);
        for (uint32_t k = 0; k < COUNT(first_editions); k++)
            CHECK_EQ(is_met(first_editions[k], (uint32_t)number,
                            (uint32_t)target), number >= target);
    }
}

static void some_waits(void)
{
    CHECK(is_met(2, 0, 0xFFFFFFFF)); /* over the end */
    CHECK(!is_met(1, 0, 0xFFFFFFFF));
    CHECK(!is_met(2, 0xFFFFFFFF, 0)); /* not yet over it */
    CHECK(is_met(1, 0xFFFFFFFF, 0));
    CHECK(is_met(2, 0x7FFFFFFF, 0));
    CHECK(!is_met(2, 0x80000000, 0));
    CHECK(is_met(1, 0x80000000, 0));
    CHECK(is_met(2, 0, 0x80000001));
    CHECK(!is_met(2, 0, 0x80000000));
    CHECK(!is_met(1, 0, 0x80000001));
}

/* ---- fences ---- */

/* Whether an emitting command with this outcome signals. */
static int signals(uint32_t outcome)
{
    return outcome == 0 || outcome >= 6;
}

/* A command with this outcome and these flags, all slots but the full one at
 * this number; gives the stage after it. */
static struct stage *served(uint32_t edition, uint32_t number,
                            uint32_t outcome, uint32_t flags)
{
    struct stage *stage = stage_of(edition);

    if (outcome >= IND_NOT_LISTED)
        pack_stop(stage, outcome);
    for (uint32_t i = 0; i < FULL_SLOT; i++)
        stage->device.slots[i] = number;
    stage->device.slots[FULL_SLOT] = UINT32_MAX;
    push_outcome(stage, 0, outcome, flags);
    CHECK_EQ(stage_serve(stage), outcome);
    CHECK_EQ(stage->device.edition, edition);
    for (uint32_t i = 1; i < FULL_SLOT; i++)
        CHECK_EQ(stage->device.slots[i], number);
    CHECK_EQ(stage->device.slots[FULL_SLOT], UINT32_MAX);
    return stage;
}

static void emitting(uint32_t edition, uint32_t number, uint32_t outcome)
{
    uint32_t raised = number + 1;
    struct stage *stage = served(edition, number, outcome, EMIT);
    int emits = signals(outcome);

    CHECK_EQ(stage->report.emitted, emits);
    CHECK_EQ(stage->report.fence, emits ? raised : 0);
    CHECK_EQ(stage->device.slots[0], emits ? raised : number);
    stage_free(stage);
}

static void silent(uint32_t edition, uint32_t number, uint32_t outcome)
{
    struct stage *stage = served(edition, number, outcome, IRQ);

    CHECK_EQ(stage->report.emitted, 0);
    CHECK_EQ(stage->report.fence, 0);
    CHECK_EQ(stage->device.slots[0], number);
    stage_free(stage);
}

/* Outcome 5 is there in edition 1 alone, and a slot that holds the largest
 * number goes round in edition 2 alone. */
static void fences(void)
{
    for (uint32_t outcome = 0; outcome < IND_OUTCOMES; outcome++) {
        for (uint32_t i = 0; i < COUNT(edges); i++) {
            int full = edges[i] == UINT32_MAX;
            if (outcome != IND_SLOT_FULL) {
                emitting(2, edges[i], outcome);
                silent(2, edges[i], outcome);
                silent(1, edges[i], outcome);
            }
            if (!full || !signals(outcome))
                emitting(1, edges[i], outcome);
        }
    }
}

/* The largest number in edition 1: 5 before 6 to 14, no fence, IRQ told. */
static void full_slots(void)
{
    for (uint32_t i = 0; i < COUNT(first_editions); i++) {
        struct stage *stage = stage_of(first_editions[i]);
        stage->device.slots[9] = UINT32_MAX;
        serve_unchanged(stage, 5, head(BARRIER, EMIT | IRQ, 9, 0), 0, 0, 0);
        CHECK_EQ(stage->report.emitted, 0);
        CHECK_EQ(stage->report.fence, 0);
        CHECK_EQ(stage->report.irq, 1);
        CHECK_EQ(stage->device.slots[9], UINT32_MAX);
        serve_unchanged(stage, 5, head(0x02, EMIT, 9, 1), 2, 0, 0);
        CHECK_EQ(serve(stage, head(BARRIER, 0, 9, 0), 0, 0, 0), 0);
        stage_free(stage);
    }
}

/* Step by step over the end; a wait is asked before the same slot is raised. */
static void over_the_end(void)
{
    struct stage *stage = stage_of(2);

    stage->device.slots[5] = 0xFFFFFFFD;
    for (uint32_t fence = 0xFFFFFFFE; fence != 3; fence++) {
        push(stage, 0, head(BARRIER, EMIT | WAIT, 5, 0), 0, 0, 0);
        push_word(stage, 0, fence - 1);
        CHECK_EQ(stage_serve(stage), 0);
        CHECK_EQ(stage->report.emitted, 1);
        CHECK_EQ(stage->report.fence, fence);
        CHECK_EQ(stage->device.slots[5], fence);
    }
    push(stage, 0, head(BARRIER, EMIT | WAIT, 5, 0), 0, 0, 0);
    push_word(stage, 0, 3);
    stage_unserved(stage, IND_IDLE);
    stage_free(stage);
}

/* From a fresh device, ring 0 emits and ring 1 waits for each of its fences in
 * turn; ring 2 waits for one far ahead, which never comes. */
static void rings_over_the_end(uint32_t first)
{
    struct stage *stage = stage_new(LENGTH);
    const uint32_t all[IND_RINGS][2] = {{0, 4}, {0, 4}, {0, 4}, {0, 4}};

    CHECK_EQ(ind_fresh_edition_2(&stage->device, LENGTH, all, 1, first), 0);
    for (uint32_t i = 1; i <= 6; i++) {
        push(stage, 0, head(BARRIER, EMIT, 7, 0), 0, 0, 0);
        push(stage, 1, head(BARRIER, WAIT, 7, 0), 0, 0, 0);
        push_word(stage, 1, first + i);
    }
    push(stage, 2, head(BARRIER, WAIT, 7, 0), 0, 0, 0);
    push_word(stage, 2, first + 0x40000000);
    for (uint32_t turn = 0; turn < 12; turn++) {
        CHECK_EQ(stage_turn(stage), IND_SERVED);
        CHECK_EQ(stage->report.ring, turn % 2);
        CHECK_EQ(stage->report.emitted, turn % 2 == 0);
        CHECK_EQ(stage->report.fence, turn % 2 == 0 ? first + turn / 2 + 1 : 0);
    }
    stage_unserved(stage, IND_IDLE);
    stage->pipe_len = 0;
    stage_unserved(stage, 104);
    CHECK_EQ(stage->device.edition, 2);
    stage_free(stage);
}

/* ---- the image and the report ---- */

static uint32_t turn(uint8_t *image, const uint8_t *ring, size_t ring_len,
                     size_t pipe_len, uint8_t *report)
{
    memset(report, 0xEE, IND_REPORT_BYTES);
    return turn_on_bytes(image, IND_IMAGE_BYTES, ring, ring_len, pipe_len,
                         report, IND_REPORT_BYTES);
}

static const uint8_t emits[HEADER] = {BARRIER, EMIT, 0};

/* A turn with one word of the image changed is not served: it leaves all of the
 * image, and tells nothing else. */
static void left(const uint8_t *image, uint32_t at, uint32_t word,
                 size_t ring_len, uint32_t status)
{
    const uint8_t none[IND_REPORT_BYTES] = {0};
    uint8_t changed[IND_IMAGE_BYTES], kept[IND_IMAGE_BYTES];
    uint8_t report[IND_REPORT_BYTES];

    memcpy(changed, image, sizeof changed);
    put_word(changed + 4 * at, word);
    memcpy(kept, changed, sizeof kept);
    CHECK_EQ(turn(changed, emits, ring_len, IND_PIPE_LEAST, report), status);
    CHECK(memcmp(changed, kept, sizeof kept) == 0);
    CHECK_EQ(get_word(report), status);
    CHECK(memcmp(report + 4, none, sizeof report - 4) == 0);
}

/* Idle and refused turns leave word 113; a served one writes 1 or 2. */
static void word_113(uint32_t word)
{
    uint8_t image[IND_IMAGE_BYTES] = {0}, report[IND_REPORT_BYTES];
    int second = word == 2;

    put_word(image + 4 * IND_IMAGE_LIMIT, 1);
    put_word(image + EDITION, word);
    put_word(image + SLOT, UINT32_MAX);
    left(image, IND_IMAGE_MARKER, 3, HEADER - 1, IND_IDLE);
    left(image, IND_IMAGE_WINDOW_LENGTH, LENGTH + 4, HEADER, 101);
    left(image, IND_IMAGE_MARKER, 4, HEADER, 102);
    left(image, IND_IMAGE_CURSOR, HEADER + 1, HEADER, 103);
    CHECK_EQ(turn(image, emits, HEADER, 0, report), 104);
    CHECK_EQ(get_word(image + EDITION), word);
    CHECK_EQ(turn(image, emits, HEADER, IND_PIPE_LEAST, report), 0);
    CHECK_EQ(get_word(image + EDITION), second ? 2 : 1);
    CHECK_EQ(get_word(image + SLOT), second ? 0 : UINT32_MAX);
    CHECK_EQ(get_word(report + 4 * IND_REPORT_OUTCOME), second ? 0 : 5);
    CHECK_EQ(get_word(report + 4 * IND_REPORT_FENCE), 0);
    CHECK_EQ(get_word(report + EMITTED), second);
}

/* Makes edition 2 of a memory of so many bytes, in a window that needs 64. */
static uint32_t make_2(uint8_t *image, uint64_t memory_len, uint32_t limit,
                       uint32_t first)
{
    uint8_t pairs[IND_WINDOWS_BYTES] = {0};

    put_word(pairs + 4, 64);
    memset(image, 0x55, IND_IMAGE_BYTES);
    return ind_fv_fresh_edition_2(image, IND_IMAGE_BYTES, pairs, sizeof pairs,
                                  memory_len, limit, first);
}

static void made_image(uint32_t first)
{
    uint8_t image[IND_IMAGE_BYTES], made[IND_IMAGE_BYTES] = {0};
    uint8_t empty[IND_IMAGE_BYTES] = {0};

    put_word(empty + 4 * IND_IMAGE_LIMIT, 16384);
    put_word(empty + EDITION, 1);
    put_word(made + 4, 64);
    put_word(made + 4 * IND_IMAGE_LIMIT, 65536);
    put_word(made + EDITION, 2);
    for (uint32_t i = 0; i < IND_SLOTS; i++)
        put_word(made + SLOT + 4 * i, first);
    CHECK_EQ(make_2(image, 64, 65536, first), 0);
    CHECK(memcmp(image, made, sizeof image) == 0);
    CHECK_EQ(make_2(image, 63, 65536, first), 101);
    CHECK(memcmp(image, empty, sizeof image) == 0);
    CHECK_EQ(make_2(image, 64, 65537, first), 102);
    CHECK(memcmp(image, empty, sizeof image) == 0);
    CHECK_EQ(make_2(image, 63, 65537, first), 101);
    CHECK(memcmp(image, empty, sizeof image) == 0);
}

static void wrong_lengths(void)
{
    enum { RIGHT = IND_IMAGE_BYTES, PAIRS = IND_WINDOWS_BYTES };
    const uint8_t pairs[PAIRS + 1] = {0};
    uint8_t image[RIGHT + 1], kept[RIGHT + 1];

    memset(image, 0x55, sizeof image);
    memcpy(kept, image, sizeof kept);
    for (size_t length = 0; length <= RIGHT + 1; length += 4 + length % 4) {
        if (length != RIGHT)
            CHECK_EQ(ind_fv_fresh_edition_2(image, length, pairs, PAIRS + 1,
                                            UINT64_MAX, 0, 7), 201);
    }
    CHECK_EQ(ind_fv_fresh_edition_2(image, RIGHT + 1, pairs, PAIRS, 0, 1, 7),
             201);
    CHECK_EQ(ind_fv_fresh_edition_2(image, RIGHT, pairs, PAIRS + 1, UINT64_MAX,
                                    0, 7), 203);
    CHECK_EQ(ind_fv_fresh_edition_2(image, RIGHT, pairs, PAIRS - 1, 0, 1, 7),
             203);
    CHECK(memcmp(image, kept, sizeof kept) == 0);
}

void test_editions(void)
{
    CHECK_EQ(IND_IMAGE_EDITION, 113);
    CHECK_EQ(IND_IMAGE_BYTES, 456);
    CHECK_EQ(IND_REPORT_EMITTED, 6);
    makings();
    half_the_range();
    every_edge();
    some_waits();
    fences();
    full_slots();
    over_the_end();
    for (uint32_t i = 0; i < COUNT(edges); i++) {
        rings_over_the_end(edges[i]);
        made_image(edges[i]);
    }
    word_113(2);
    for (uint32_t i = 0; i < COUNT(first_editions); i++)
        word_113(first_editions[i]);
    wrong_lengths();
}
