/* Fence numbers that go round: a device of edition 2 whose slots start at 4,294,967,294. Ring 0 emits three times, by
 * 4,294,967,295 and 0 to 1. Ring 1 waits for 1, and is served after the third emit and not before. By edition 1's rule its wait
 * would be met at once: 4,294,967,294 is at least 1. */
#include <stdio.h>
#include <string.h>
#include "fioravispa.h"

enum { SLOT = 5, TARGET = 1, EMITS = 3 };
#define FIRST 4294967294u

static uint8_t image[FV_IMAGE_BYTES], pack[FV_PACK_LEAST], pipe[FV_PIPE_LEAST];
static uint8_t emits[EMITS * FV_HEADER_BYTES], waits[FV_HEADER_BYTES + 4];

static const struct fv_report expected[] = {
    {.status = FV_SERVED, .ring = 0, .fence = 4294967295u, .emitted = 1},
    {.status = FV_SERVED, .ring = 0, .fence = 0, .emitted = 1},  /* a fence of 0, and one was emitted */
    {.status = FV_SERVED, .ring = 0, .fence = 1, .emitted = 1},
    {.status = FV_SERVED, .ring = 1, .fence = 0, .emitted = 0},  /* a fence of 0, and none was */
    {.status = FV_IDLE},
};

/* A turn for each report that is expected, up to the first that differs; gives how many were right. */
static size_t play(const struct fv_lent *lent)
{
    const size_t count = sizeof expected / sizeof *expected;
    size_t right = 0;

    while (right < count) {
        uint32_t slot = fv_image_slot(image, SLOT);
        struct fv_report report;

        printf("slot %d holds %u: a wait for %d is %s\n", SLOT, slot, TARGET,
               fv_is_met(fv_image_edition(image), slot, TARGET) ? "met" : "not met");
        report = fv_turn_by(fv_turn, image, lent);
        if (report.status == FV_SERVED)
            printf("ring %u outcome %u fence %u emitted %u\n", report.ring, report.outcome, report.fence, report.emitted);
        if (memcmp(&report, &expected[right], sizeof report) != 0)
            break;
        right++;
    }
    return right;
}

int main(void)
{
    const struct fv_window windows[FV_RINGS] = {{0, 0}};           /* a BARRIER needs no memory */
    uint8_t bytes[FV_WINDOWS_BYTES];
    struct fv_lent lent = {
        .rings = {{emits, 0, sizeof emits}, {waits, 0, sizeof waits}},
        .pack = pack, .pack_length = fv_put_pack(pack, sizeof pack, NULL, 0),
        .pipe = pipe, .pipe_length = sizeof pipe,
    };

    fv_put_windows(bytes, windows);
    if (fv_fresh_edition_2(image, sizeof image, bytes, sizeof bytes, 0, FV_LIMIT_DEFAULT, FIRST) != FV_MADE)
        return 1;
    for (uint32_t i = 0; i < EMITS; i++)
        fv_barrier(&lent.rings[0], fv_emit(SLOT));
    fv_barrier(&lent.rings[1], fv_wait(SLOT, TARGET));
    return play(&lent) == sizeof expected / sizeof *expected ? 0 : 1;
}
