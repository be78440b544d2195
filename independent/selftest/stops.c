/* Where a kernel stopped: the address, the place, the group and the thread. */
#include "selftest/stage.h"

#include <string.h>

#include "device/image.h"

enum {
    DISPATCH = 0x20, BARRIER = 0x22, LENGTH = 64, /* of the windows */
    AWAY = 8, /* a window starts so far into the memory */
    REPORT = IND_REPORT_BYTES
};

/* ---- the address: one step of a load or store ---- */

static uint32_t size_of(uint32_t funct3)
{
    return funct3 == 3 ? 16 : 1u << funct3;
}

/* By s5 and, but of 16 bytes (funct3 3), an immediate. */
static uint32_t access_word(uint32_t funct3, int stores, int32_t imm)
{
    if (funct3 == 3)
        return stores ? r_shape(VST, 0, 0, 0, 5, 7)
                      : r_shape(VLD, 0, 0, 7, 5, 0);
    return stores ? s_shape(funct3, 5, 7, imm)
                  : i_shape(LOAD, funct3, 7, 5, imm);
}

/* The bytes one by one, none wrapped: the first that is not in the window. */
static int finds_outside(uint32_t address, uint32_t bytes, uint32_t length,
                         uint32_t *first)
{
    for (uint64_t at = address; at < (uint64_t)address + bytes; at++) {
        if (at >= length) {
            *first = (uint32_t)at;
            return 1;
        }
    }
    *first = 0;
    return 0;
}

static void access_at(uint32_t funct3, int stores, uint32_t address,
                      int32_t imm, uint32_t length)
{
    uint8_t memory[LENGTH + 2 * AWAY] = {0}, code[4];
    const struct ind_kernel kernel = {0, 1, code};
    const struct ind_window window = {memory, AWAY, length};
    struct ind_thread thread;
    uint32_t outside = 0xEEEEEEEE, wanted;
    int stops = finds_outside(address, size_of(funct3), length, &wanted);

    ind_thread_start(&thread, 0, 0, 1, 1);
    thread.scalar[5] = address - (uint32_t)imm;
    put_word(code, access_word(funct3, stores, imm));
    CHECK_EQ(ind_step(&thread, &kernel, &window, 1, &outside),
             stops ? 13 : IND_GOES_ON);
    CHECK_EQ(outside, wanted);
    CHECK_EQ(thread.place, stops ? 0 : 4);
}

/* Every width, from far below 0 to far above the window, and far away. */
static void addresses(uint32_t length)
{
    const uint32_t far[] = {0x7FFFFFFC, 0x80000000, 0xFFFF0000, 0x00100000};
    const int32_t imms[] = {0, 1, -1, 2047, -2048};

    for (uint32_t n = 0; n < 4 * 2 * COUNT(imms); n++) {
        uint32_t funct3 = n % 4;
        int stores = n / 4 % 2 == 1;
        int32_t imm = funct3 == 3 ? 0 : imms[n / 8];
        for (uint32_t i = 0; i < length + 80; i++)
            access_at(funct3, stores, i - 40, imm, length);
        for (uint32_t i = 0; i < COUNT(far); i++)
            access_at(funct3, stores, far[i], imm, length);
    }
}

/* ---- what a turn tells ---- */

static void told(const struct stage *stage, uint32_t address, uint32_t place,
                 uint32_t group, uint32_t thread)
{
    CHECK_EQ(stage->report.stop.address, address);
    CHECK_EQ(stage->report.stop.place, place);
    CHECK_EQ(stage->report.stop.group, group);
    CHECK_EQ(stage->report.stop.thread, thread);
}

static uint32_t run(struct stage *stage, const uint32_t *words, uint32_t count,
                    uint32_t groups, uint32_t threads)
{
    pack_one(stage, words, count);
    return serve(stage, head(DISPATCH, 3, 1, 0), groups, threads, 0);
}

/* Numbers worked out by hand, in a window that starts behind the memory's
 * start. */
static void by_hand(void)
{
    const uint32_t below_0[] = {0xFE502E0D}; /* P8: SW at -4 from s0 */
    const uint32_t half_out[] = {MEMBAR, s_shape(2, 0, 0, LENGTH - 2)};
    const uint32_t at_end[] = {MEMBAR, MEMBAR, i_shape(LOAD, 0, 5, 0, LENGTH)};
    const uint32_t past_end[] = {s_shape(1, 0, 0, LENGTH + 3)};
    const uint32_t wide[] = {
        i_shape(INT_IMM, 0, 5, 0, LENGTH - 15), r_shape(VLD, 0, 0, 1, 5, 0)
    };
    struct stage *stage = stage_new(LENGTH + 2 * AWAY);

    stage->device.rings[0].window_start = AWAY;
    stage->device.rings[0].window_length = LENGTH;
    CHECK_EQ(run(stage, below_0, 1, 1, 1), 13);
    told(stage, 4294967292u, 0, 0, 0);
    CHECK_EQ(run(stage, half_out, 2, 1, 1), 13);
    told(stage, 64, 4, 0, 0);
    CHECK_EQ(run(stage, at_end, 3, 1, 1), 13);
    told(stage, 64, 8, 0, 0);
    CHECK_EQ(run(stage, past_end, 1, 1, 1), 13);
    told(stage, 67, 0, 0, 0);
    CHECK_EQ(run(stage, wide, 2, 1, 1), 13);
    told(stage, 64, 4, 0, 0);
    stage->device.rings[0].window_length = 0;
    CHECK_EQ(run(stage, wide, 2, 1, 1), 13);
    told(stage, 49, 4, 0, 0);
    stage_free(stage);
}

/* Register and immediate wrap together before the test, which does not wrap. */
static void wrapped_addresses(void)
{
    const uint32_t into[] = {
        i_shape(INT_IMM, 0, 5, 0, -1), i_shape(LOAD, 2, 6, 5, 1), WFI
    };
    const uint32_t across[] = {
        i_shape(INT_IMM, 0, 5, 0, -1), i_shape(LOAD, 2, 6, 5, -2), WFI
    };
    struct stage *stage = stage_new(LENGTH);

    CHECK_EQ(run(stage, into, 3, 1, 1), 0);
    told(stage, 0, 0, 0, 0);
    CHECK_EQ(run(stage, across, 3, 1, 1), 13);
    told(stage, 4294967293u, 4, 0, 0);
    stage->device.rings[0].window_length = 0;
    CHECK_EQ(run(stage, into, 3, 1, 1), 13);
    told(stage, 0, 4, 0, 0); /* the empty window's own first address */
    stage_free(stage);
}

/* ---- the place ---- */

/* Each stop behind so many words; its place is where the thread stood. */
static void places(uint32_t before)
{
    enum { STOPS = 7, MOST = 8 };
    const uint32_t stops[STOPS] = {
        0, b_shape(0, 0, 0, 2), b_shape(0, 0, 0, -4096), b_shape(0, 0, 0, 8),
        s_shape(2, 0, 0, -4), b_shape(0, 0, 0, 0), MEMBAR
    };
    const uint32_t outcomes[STOPS] = {11, 12, 12, 12, 13, 14, 12};
    const uint32_t moved[STOPS] = {0, 0, 0, 0, 0, 0, 4}; /* off the end */

    for (uint32_t i = 0; i < STOPS; i++) {
        uint32_t words[MOST];
        struct stage *stage = stage_new(LENGTH);
        for (uint32_t n = 0; n < before; n++)
            words[n] = MEMBAR;
        words[before] = stops[i];
        CHECK_EQ(run(stage, words, before + 1, 2, 2), outcomes[i]);
        told(stage, i == 4 ? 4294967292u : 0, 4 * before + moved[i], 0, 0);
        stage_free(stage);
    }
}

/* A thread that has spent its steps stands at the one not taken, whatever it
 * is: an end, a word not listed, a branch back, the place past the end. */
static void spent_places(void)
{
    const uint32_t last[] = {WFI, 0, b_shape(0, 0, 0, -8), MEMBAR};
    const uint32_t places[][4] = { /* by the limit, 1 to 4 */
        {4, 8, 0, 0}, {4, 8, 8, 8}, {4, 8, 0, 4}, {4, 8, 12, 12}
    };
    const uint32_t outcomes[][4] = {
        {14, 14, 0, 0}, {14, 14, 11, 11}, {14, 14, 14, 14}, {14, 14, 14, 12}
    };

    for (uint32_t n = 0; n < 4 * COUNT(last); n++) {
        const uint32_t words[] = {MEMBAR, MEMBAR, last[n / 4]};
        struct stage *stage = stage_new(LENGTH);
        stage->device.limit = 1 + n % 4;
        CHECK_EQ(run(stage, words, 3, 1, 1), outcomes[n / 4][n % 4]);
        told(stage, 0, places[n / 4][n % 4], 0, 0);
        stage_free(stage);
    }
}

/* The place counts from the kernel's start, wherever that is in the code. */
static void later_kernels(void)
{
    const uint32_t numbers[] = {
        3, 0, 1, 1, 2, 3, 3, 6, WFI, MEMBAR, 0, MEMBAR, MEMBAR, MEMBAR
    };
    struct stage *stage = stage_new(0);

    for (uint32_t i = 0; i < COUNT(numbers); i++)
        put_word(stage->pack + 4 * i, numbers[i]);
    stage->pack_len = sizeof numbers;
    CHECK_EQ(serve(stage, head(DISPATCH, 0, 0, 0), 1, 1, 0), 0);
    told(stage, 0, 0, 0, 0);
    CHECK_EQ(serve(stage, head(DISPATCH, 0, 0, 0), 1, 1, 1), 11);
    told(stage, 0, 4, 0, 0);
    CHECK_EQ(serve(stage, head(DISPATCH, 0, 0, 0), 1, 1, 2), 12);
    told(stage, 0, 12, 0, 0);
    stage_free(stage);
}

/* ---- group and thread ---- */

/* The thread of this number stops, by each outcome; those before it end, and
 * s1 and s2 hold other numbers by then. */
static void stops_in(uint32_t groups, uint32_t threads, uint32_t number)
{
    const uint32_t stops[] = {
        0, b_shape(0, 0, 0, -4096), i_shape(LOAD, 2, 6, 1, LENGTH - 9),
        b_shape(0, 0, 0, 0)
    };

    for (uint32_t i = 0; i < COUNT(stops); i++) {
        const uint32_t words[] = {
            r_shape(INT, 1, 0, 5, 1, 3), r_shape(INT, 0, 0, 5, 5, 2),
            (number + 2048) >> 12 << 12 | 6 << 7 | LUI,
            i_shape(INT_IMM, 0, 6, 6, (int32_t)(number & 0xFFF)),
            i_shape(INT_IMM, 0, 1, 0, 7), i_shape(INT_IMM, 0, 2, 0, 9),
            b_shape(0, 5, 6, 8), WFI, stops[i]
        };
        struct stage *stage = stage_new(LENGTH);
        stage->device.limit = 20;
        CHECK_EQ(run(stage, words, COUNT(words), groups, threads), 11 + i);
        told(stage, i == 2 ? LENGTH : 0, 32, number / threads,
             number % threads);
        stage_free(stage);
    }
}

/* ---- nothing to tell ---- */

/* After a stop, and whatever it told: outcomes 0 to 10, idle, refused. */
static void none_told(void)
{
    struct stage *stage = stage_new(LENGTH);

    for (uint32_t outcome = 0; outcome < IND_NOT_LISTED; outcome++) {
        const uint32_t stop[] = {MEMBAR, i_shape(LOAD, 2, 5, 0, -4)};
        const uint32_t ends[] = {WFI};
        stage->device.marker = 0;
        CHECK_EQ(run(stage, stop, 2, 1, 1), 13);
        told(stage, 4294967292u, 4, 0, 0);
        CHECK_EQ(run(stage, ends, 1, 3, 4), 0);
        told(stage, 0, 0, 0, 0);
        stage->device.slots[FULL_SLOT] = UINT32_MAX;
        push_outcome(stage, 0, outcome, 1);
        CHECK_EQ(stage_serve(stage), outcome);
        told(stage, 0, 0, 0, 0);
        stage_unserved(stage, IND_IDLE);
        stage->device.marker = 4;
        stage_unserved(stage, 102);
    }
    stage_free(stage);
}

/* ---- the report ---- */

/* A turn on bytes: threads of group 1 whose number is not 0 stop. */
static uint32_t turn(uint8_t *report, size_t report_len, size_t ring_len)
{
    const uint32_t pack[] = {
        1, 0, 4, 4, b_shape(1, 1, 0, 8), WFI, b_shape(1, 2, 0, 8), WFI
    };
    const uint32_t ring[] = {head(DISPATCH, 0, 0, 0), 2, 3, 0};
    uint8_t image[IND_IMAGE_BYTES] = {0}, pipe[IND_PIPE_LEAST];
    uint8_t packed[sizeof pack], rung[sizeof ring];

    for (uint32_t i = 0; i < COUNT(pack); i++)
        put_word(packed + 4 * i, pack[i]);
    for (uint32_t i = 0; i < COUNT(ring); i++)
        put_word(rung + 4 * i, ring[i]);
    put_word(image + 4 * IND_IMAGE_LIMIT, 9);
    return ind_fv_turn(image, sizeof image, NULL, 0, rung, ring_len, NULL, 0,
                       NULL, 0, NULL, 0, packed, sizeof packed, pipe,
                       sizeof pipe, report, report_len);
}

/* Words 7 to 10 of 11. Group 1's thread 1 takes a branch to no place, which
 * stands at 8. */
static void words_of_the_report(void)
{
    const uint32_t wanted[] = {0, 0, 12, 0, 0, 0, 0, 0, 8, 1, 1};
    uint8_t report[REPORT];

    CHECK_EQ(IND_REPORT_ADDRESS, 7);
    CHECK_EQ(IND_REPORT_PLACE, 8);
    CHECK_EQ(IND_REPORT_GROUP, 9);
    CHECK_EQ(IND_REPORT_THREAD, 10);
    CHECK_EQ(IND_REPORT_BYTES, 44);
    CHECK_EQ(COUNT(wanted), IND_REPORT_WORDS);
    memset(report, 0xEE, sizeof report);
    CHECK_EQ(turn(report, REPORT, IND_HEADER_BYTES), IND_SERVED);
    for (uint32_t i = 0; i < COUNT(wanted); i++)
        CHECK_EQ(get_word(report + 4 * i), wanted[i]);
    memset(report, 0xEE, sizeof report);
    CHECK_EQ(turn(report, REPORT, 0), IND_IDLE);
    for (uint32_t i = 0; i < COUNT(wanted); i++)
        CHECK_EQ(get_word(report + 4 * i), i == 0 ? 1 : 0);
}

/* Every other length, that without a stop too: 202, and not a byte is
 * written. */
static void lengths_of_the_report(void)
{
    uint8_t report[2 * REPORT], kept[2 * REPORT];

    memset(report, 0xEE, sizeof report);
    memcpy(kept, report, sizeof kept);
    for (size_t length = 0; length <= sizeof report; length++) {
        if (length != REPORT)
            CHECK_EQ(turn(report, length, IND_HEADER_BYTES), 202);
        CHECK(memcmp(report, kept, sizeof kept) == 0);
    }
}

void test_stops(void)
{
    addresses(0);
    addresses(4);
    addresses(LENGTH);
    by_hand();
    wrapped_addresses();
    for (uint32_t before = 0; before < 6; before++)
        places(before);
    spent_places();
    later_kernels();
    for (uint32_t number = 0; number < 3 * 4; number++) {
        stops_in(3, 4, number);
        stops_in(4, 3, number);
    }
    stops_in(64, 64, 0);
    stops_in(64, 64, 64);
    stops_in(64, 64, 63);
    stops_in(64, 64, 64 * 64 - 1);
    none_told();
    words_of_the_report();
    lengths_of_the_report();
}
