/* Pieces of length 0 that are NULL, in the calls on bytes. C allows no memcpy
 * and no memset of NULL, of 0 bytes neither: the sanitizers tell that, and any
 * byte that is read or written there. */
#include "selftest/stage.h"

#include <string.h>

#include "device/image.h"

enum { IMAGE, MEMORY, RING, PACK = RING + IND_RINGS, PIPE, REPORT, PIECES };

enum { ROOM = IND_PIPE_LEAST, HEADER = IND_HEADER_BYTES };

struct lent {
    uint8_t bytes[PIECES][ROOM];
    size_t length[PIECES];
};

/* Every empty piece is NULL. */
static uint8_t *piece(struct lent *lent, int number)
{
    return lent->length[number] == 0 ? NULL : lent->bytes[number];
}

#define LENT(number) piece(lent, number), lent->length[number]

static uint32_t turn(struct lent *lent)
{
    return ind_fv_turn(LENT(IMAGE), LENT(MEMORY), LENT(RING), LENT(RING + 1),
                       LENT(RING + 2), LENT(RING + 3), LENT(PACK), LENT(PIPE),
                       LENT(REPORT));
}

/* A device of empty windows, no memory, a kernel that stores, and a command of
 * no bytes on each ring: WRITE_MEM, READ_MEM, COPY_BUFFER, DISPATCH_1D. */
static void start(struct lent *lent)
{
    const uint32_t pack[] = {1, 0, 2, 2, s_shape(0, 0, 0, 0), WFI};
    const uint32_t heads[IND_RINGS] = {
        head(0x01, 8, 0, 0), head(0x02, 0, 0, 0), head(0x23, 0, 0, 0),
        head(0x20, 0, 0, 0)
    };

    memset(lent, 0, sizeof *lent);
    for (uint32_t i = 0; i < sizeof pack / sizeof pack[0]; i++)
        put_word(lent->bytes[PACK] + 4 * i, pack[i]);
    for (uint32_t i = 0; i < IND_RINGS; i++) {
        put_word(lent->bytes[RING + i], heads[i]);
        lent->length[RING + i] = HEADER;
    }
    put_word(lent->bytes[RING + 3] + 4, 1);
    put_word(lent->bytes[RING + 3] + 8, 1);
    put_word(lent->bytes[IMAGE] + 4 * IND_IMAGE_LIMIT, IND_LIMIT_DEFAULT);
    lent->length[IMAGE] = IND_IMAGE_BYTES;
    lent->length[PACK] = sizeof pack;
    lent->length[PIPE] = IND_PIPE_LEAST;
    lent->length[REPORT] = IND_REPORT_BYTES;
}

/* No memory: three transfers of no bytes, and a store that finds no window. */
static void no_memory(void)
{
    struct lent lent;
    struct ind_report report;

    start(&lent);
    for (uint32_t i = 0; i < IND_RINGS; i++) {
        CHECK_EQ(turn(&lent), IND_SERVED);
        ind_report_decode(lent.bytes[REPORT], &report);
        CHECK_EQ(report.ring, i);
        CHECK_EQ(report.outcome, i == 3 ? 13 : 0);
    }
    CHECK_EQ(turn(&lent), IND_IDLE);
}

/* What a turn says with these pieces NULL: what it says of their length. */
static uint32_t wanted(uint32_t null)
{
    const uint32_t rings = 15u << RING;

    if ((null >> IMAGE & 1) != 0)
        return 201;
    if ((null >> REPORT & 1) != 0)
        return 202;
    if ((null >> PIPE & 1) != 0)
        return 104;
    if ((null >> PACK & 1) != 0)
        return 105;
    return (null & rings) == rings ? IND_IDLE : IND_SERVED;
}

/* Every choice of pieces, with a memory or none. */
static void every_choice(void)
{
    struct lent lent;

    for (uint32_t null = 0; null < 1u << PIECES; null++) {
        start(&lent);
        lent.length[MEMORY] = 64;
        for (int i = 0; i < PIECES; i++) {
            if ((null >> i & 1) != 0)
                lent.length[i] = 0;
        }
        CHECK_EQ(turn(&lent), wanted(null));
    }
}

static void fresh(void)
{
    uint8_t image[IND_IMAGE_BYTES], windows[IND_WINDOWS_BYTES] = {0};

    CHECK_EQ(ind_fv_fresh(NULL, 0, windows, sizeof windows, 0), 201);
    CHECK_EQ(ind_fv_fresh(image, sizeof image, NULL, 0, 0), 203);
    CHECK_EQ(ind_fv_fresh(NULL, 0, NULL, 0, 0), 201);
    CHECK_EQ(ind_fv_fresh_with(NULL, 0, windows, sizeof windows, 0, 1), 201);
    CHECK_EQ(ind_fv_fresh_with(image, sizeof image, NULL, 0, 0, 1), 203);
    CHECK_EQ(ind_fv_fresh_with(NULL, 0, NULL, 0, 0, 1), 201);
    CHECK_EQ(ind_fv_fresh_edition_2(NULL, 0, windows, sizeof windows, 0, 1, 1),
             201);
    CHECK_EQ(ind_fv_fresh_edition_2(image, sizeof image, NULL, 0, 0, 1, 1),
             203);
    CHECK_EQ(ind_fv_fresh_edition_2(NULL, 0, NULL, 0, 0, 1, 1), 201);
}

void test_nulls(void)
{
    no_memory();
    every_choice();
    fresh();
}
