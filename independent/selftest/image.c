/* The device as bytes: lengths, what a call writes and what it leaves. */
#include "selftest/stage.h"

#include <string.h>

#include "device/image.h"

/* Where words stand, in bytes. */
enum {
    NEXT = 4 * IND_IMAGE_RING_WORDS,
    CURSOR = 4 * IND_IMAGE_CURSOR,
    HELD = 4 * IND_IMAGE_HELD,
    BASE = 4 * IND_IMAGE_BASE,
    STRIDE = 4 * IND_IMAGE_STRIDE,
    MARKER = 4 * IND_IMAGE_MARKER,
    LIMIT = 4 * IND_IMAGE_LIMIT,
    TAKEN = 4 * IND_IMAGE_TAKEN,
    OUTCOMES = 4 * IND_IMAGE_OUTCOMES,
    EDITION = 4 * IND_IMAGE_EDITION
};

static uint32_t turn(uint8_t *image, size_t image_len, const uint8_t *ring,
                     size_t ring_len, uint8_t *report, size_t report_len)
{
    return turn_on_bytes(image, image_len, ring, ring_len, IND_PIPE_LEAST,
                         report, report_len);
}

static void fresh_image(uint8_t *image)
{
    uint8_t windows[IND_WINDOWS_BYTES] = {0};

    for (uint32_t i = 0; i < IND_RINGS; i++)
        put_word(windows + IND_PAIR_BYTES * i + 4, 64);
    memset(image, 0x55, IND_IMAGE_BYTES);
    CHECK_EQ(ind_fv_fresh(image, IND_IMAGE_BYTES, windows, sizeof windows, 64),
             0);
}

static void wrong_lengths(void)
{
    enum { RIGHT = IND_IMAGE_BYTES };
    uint8_t image[RIGHT + 1], report[IND_REPORT_BYTES + 1], kept[RIGHT + 1];
    const uint8_t windows[IND_WINDOWS_BYTES + 1] = {0};
    size_t windows_len = sizeof windows, report_len = sizeof report;

    memset(image, 0x55, sizeof image);
    memset(report, 0x55, sizeof report);
    memcpy(kept, image, sizeof kept);
    CHECK_EQ(ind_fv_fresh(image, RIGHT + 1, windows, windows_len, 0), 201);
    CHECK_EQ(ind_fv_fresh(image, RIGHT, windows, windows_len, 0), 203);
    CHECK_EQ(ind_fv_fresh_with(image, RIGHT - 1, windows, windows_len,
                               UINT64_MAX, 0), 201);
    CHECK_EQ(ind_fv_fresh_with(image, RIGHT, windows, windows_len, UINT64_MAX,
                               0), 203);
    CHECK_EQ(turn(image, RIGHT - 1, NULL, 0, report, report_len), 201);
    CHECK_EQ(turn(image, RIGHT, NULL, 0, report, report_len), 202);
    CHECK(memcmp(image, kept, sizeof kept) == 0);
    CHECK(memcmp(report, kept, sizeof report) == 0);
}

static void refused_fresh(void)
{
    uint8_t image[IND_IMAGE_BYTES], windows[IND_WINDOWS_BYTES] = {0};

    put_word(windows, 4);
    memset(image, 0x55, sizeof image);
    CHECK_EQ(ind_fv_fresh(image, sizeof image, windows, sizeof windows, 3),
             101);
    CHECK_EQ(get_word(image + LIMIT), 16384);
    CHECK_EQ(get_word(image + EDITION), 1);
    put_word(image + LIMIT, 0);
    put_word(image + EDITION, 0);
    for (size_t i = 0; i < sizeof image; i++)
        CHECK_EQ(image[i], 0);
}

/* Makes a device with this limit of a memory of so many bytes, in windows that
 * need 64; gives the answer. */
static uint32_t make_with(uint8_t *image, uint64_t memory_len, uint32_t limit)
{
    uint8_t windows[IND_WINDOWS_BYTES] = {0};

    put_word(windows + 4, 64);
    memset(image, 0x55, IND_IMAGE_BYTES);
    return ind_fv_fresh_with(image, IND_IMAGE_BYTES, windows, sizeof windows,
                             memory_len, limit);
}

/* Word 93 is the limit; all else is as it is where none is named. */
static void limit_in_the_image(void)
{
    const uint32_t limits[] = {1, 2, 4096, 16384, 65535, 65536};
    const uint32_t outside[] = {0, 65537, 0x80000000, 0xFFFFFFFF};
    uint8_t made[IND_IMAGE_BYTES], image[IND_IMAGE_BYTES];
    uint8_t empty[IND_IMAGE_BYTES] = {0};

    CHECK_EQ(IND_IMAGE_LIMIT, 93);
    put_word(empty + LIMIT, 16384);
    put_word(empty + EDITION, 1);
    memcpy(made, empty, sizeof made);
    put_word(made + 4, 64);
    for (uint32_t i = 0; i < COUNT(limits); i++) {
        put_word(made + LIMIT, limits[i]);
        CHECK_EQ(make_with(image, 64, limits[i]), 0);
        CHECK(memcmp(image, made, sizeof image) == 0);
        CHECK_EQ(make_with(image, 63, limits[i]), 101);
        CHECK(memcmp(image, empty, sizeof image) == 0);
    }
    for (uint32_t i = 0; i < COUNT(outside); i++) {
        CHECK_EQ(make_with(image, 64, outside[i]), 102);
        CHECK(memcmp(image, empty, sizeof image) == 0);
        CHECK_EQ(make_with(image, 63, outside[i]), 101);
        CHECK(memcmp(image, empty, sizeof image) == 0);
    }
}

/* A turn reads the limit from word 93, and writes it back as it was. */
static void limit_through_a_turn(void)
{
    const uint8_t barrier[IND_HEADER_BYTES] = {0x22};
    const uint32_t limits[] = {0, 1, 16384, 65536, 65537};
    uint8_t image[IND_IMAGE_BYTES], kept[IND_IMAGE_BYTES];
    uint8_t report[IND_REPORT_BYTES];

    for (uint32_t i = 0; i < COUNT(limits); i++) {
        int fits = i != 0 && i != 4;
        fresh_image(image);
        put_word(image + LIMIT, limits[i]);
        memcpy(kept, image, sizeof kept);
        CHECK_EQ(turn(image, sizeof image, barrier, 15, report, sizeof report),
                 fits ? 1 : 102);
        CHECK(memcmp(image, kept, sizeof kept) == 0);
        CHECK_EQ(turn(image, sizeof image, barrier, 16, report, sizeof report),
                 fits ? 0 : 102);
        CHECK_EQ(get_word(report), fits ? 0 : 102);
        CHECK_EQ(get_word(image + LIMIT), limits[i]);
        CHECK_EQ(memcmp(image, kept, sizeof kept) == 0, !fits);
    }
}

/* A held flag of 7 and an unset frame's words: left by an idle turn, written
 * anew by a served one. */
static void rough_frames(void)
{
    const uint8_t barrier[IND_HEADER_BYTES] = {0x22};
    size_t whole = sizeof barrier, report_len = IND_REPORT_BYTES;
    uint8_t image[IND_IMAGE_BYTES], kept[IND_IMAGE_BYTES];
    uint8_t report[IND_REPORT_BYTES];

    fresh_image(image);
    put_word(image + NEXT + HELD, 7);
    put_word(image + NEXT + STRIDE, 16);
    put_word(image + 2 * NEXT + BASE, 5);
    memcpy(kept, image, sizeof kept);
    CHECK_EQ(turn(image, sizeof image, barrier, whole - 1, report, report_len),
             1);
    CHECK(memcmp(image, kept, sizeof kept) == 0);
    CHECK_EQ(get_word(report), 1);
    CHECK_EQ(turn(image, sizeof image, barrier, whole, report, report_len), 0);
    put_word(kept + CURSOR, (uint32_t)whole);
    put_word(kept + NEXT + HELD, 1);
    put_word(kept + 2 * NEXT + BASE, 0);
    put_word(kept + MARKER, 1);
    put_word(kept + TAKEN, 1);
    put_word(kept + OUTCOMES, 1);
    CHECK(memcmp(image, kept, sizeof kept) == 0);
}

/* Words 94 to 97 count by ring, words 98 to 112 by outcome: each is read, for
 * the sums, and the two of a served turn are written. */
static void counts_in_the_image(void)
{
    const uint8_t barrier[IND_HEADER_BYTES] = {0x22};
    size_t whole = sizeof barrier, report_len = IND_REPORT_BYTES;
    uint8_t image[IND_IMAGE_BYTES], kept[IND_IMAGE_BYTES];
    uint8_t report[IND_REPORT_BYTES];

    CHECK_EQ(IND_IMAGE_TAKEN, 94);
    CHECK_EQ(IND_IMAGE_OUTCOMES, 98);
    CHECK_EQ(IND_IMAGE_WORDS, 114);
    for (uint32_t word = 94; word < 113; word++) {
        uint32_t other = word < 98 ? 112 : 97;
        fresh_image(image);
        put_word(image + MARKER, 2);
        put_word(image + 4 * word, UINT32_MAX);
        memcpy(kept, image, sizeof kept);
        CHECK_EQ(turn(image, sizeof image, barrier, whole, report, report_len),
                 102);
        CHECK(memcmp(image, kept, sizeof kept) == 0);
        put_word(image + 4 * other, UINT32_MAX);
        memcpy(kept, image, sizeof kept);
        CHECK_EQ(turn(image, sizeof image, barrier, 0, report, report_len), 1);
        CHECK(memcmp(image, kept, sizeof kept) == 0);
        CHECK_EQ(turn(image, sizeof image, barrier, whole, report, report_len),
                 0);
        put_word(kept + 2 * NEXT + CURSOR, (uint32_t)whole);
        put_word(kept + MARKER, 3);
        put_word(kept + 4 * 96, get_word(kept + 4 * 96) + 1);
        put_word(kept + 4 * 98, get_word(kept + 4 * 98) + 1);
        CHECK(memcmp(image, kept, sizeof kept) == 0);
    }
}

/* A number of its own in each word: image and report lose none of them. */
static void every_word_is_kept(void)
{
    uint8_t image[IND_IMAGE_BYTES], again[IND_IMAGE_BYTES];
    uint8_t report[IND_REPORT_BYTES], told[IND_REPORT_BYTES];
    struct ind_device device;
    struct ind_report numbers;

    for (uint32_t i = 0; i < IND_IMAGE_WORDS; i++)
        put_word(image + 4 * i, 1000 + i);
    for (uint32_t i = 0; i < IND_RINGS; i++)
        put_word(image + NEXT * i + HELD, 1);
    put_word(image + EDITION, 2);
    ind_image_decode(image, &device);
    ind_image_encode(&device, again);
    CHECK(memcmp(image, again, sizeof image) == 0);
    for (uint32_t i = 0; i < IND_REPORT_WORDS; i++)
        put_word(report + 4 * i, 1000 + i);
    ind_report_decode(report, &numbers);
    ind_report_encode(&numbers, told);
    CHECK(memcmp(report, told, sizeof report) == 0);
}

void test_image(void)
{
    every_word_is_kept();
    wrong_lengths();
    refused_fresh();
    limit_in_the_image();
    limit_through_a_turn();
    rough_frames();
    counts_in_the_image();
}
