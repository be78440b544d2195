/* Limits of steps, named and not: one thread blurs a row of 500 pixels, ten steps for each. */
#include <stdio.h>
#include "fioravispa.h"
#include "fioravispa_code.h"

enum {
    PIXELS = 500, INNER = PIXELS - 2,         /* the first and the last are not blurred */
    ROW = 4 * PIXELS,                         /* the blurred row stands behind the row */
    STEPS = 2 + 10 * INNER + 1                /* all that the thread takes, the WFI among them */
};

static uint8_t image[FV_IMAGE_BYTES], memory[2 * ROW], commands[FV_HEADER_BYTES], pack[128], pipe[FV_PIPE_LEAST];

static size_t put_blur(void)
{
    const uint32_t words[] = {
        fv_i(FV_ADDI, 5, 0, 4),               /* s5 = where the pixel lies */
        fv_i(FV_ADDI, 6, 0, ROW - 4),         /* s6 = where the last one does */
        fv_i(FV_LW, 7, 5, -4),
        fv_i(FV_LW, 8, 5, 0),
        fv_i(FV_LW, 9, 5, 4),
        fv_i(FV_SHLI, 8, 8, 1),
        fv_r(FV_ADD, 7, 7, 8),
        fv_r(FV_ADD, 7, 7, 9),
        fv_i(FV_LSRI, 7, 7, 2),               /* left, twice itself, right: a quarter of the sum */
        fv_s(FV_SW, 7, 5, ROW),
        fv_i(FV_ADDI, 5, 5, 4),
        fv_b(FV_BNE, 5, 6, -36),
        FV_WFI,
    };
    const struct fv_kernel kernel = {words, sizeof words / sizeof *words};
    return fv_put_pack(pack, sizeof pack, &kernel, 1);
}

static uint32_t pixel(uint32_t i)
{
    return i * i % 251;
}

/* How many pixels are blurred, from the left. */
static uint32_t blurred(void)
{
    uint32_t i = 1;

    while (i <= INNER && fv_word(memory, PIXELS + i) == (pixel(i - 1) + 2 * pixel(i) + pixel(i + 1)) / 4)
        i++;
    return i - 1;
}

static uint32_t make(const uint8_t *windows, uint32_t limit)
{
    if (limit == FV_LIMIT_DEFAULT)            /* it need not be named */
        return fv_fresh(image, sizeof image, windows, FV_WINDOWS_BYTES, sizeof memory);
    return fv_fresh_with(image, sizeof image, windows, FV_WINDOWS_BYTES, sizeof memory, limit);
}

/* Blurs on a fresh device of this limit; gives 1 if it ends with this outcome and so many blurred pixels. */
static int blurs(uint32_t limit, uint32_t outcome, uint32_t count)
{
    const struct fv_window all[FV_RINGS] = {{0, sizeof memory}};
    uint8_t windows[FV_WINDOWS_BYTES];
    struct fv_lent lent = {
        .memory = memory, .memory_length = sizeof memory, .rings = {{commands, 0, sizeof commands}},
        .pack = pack, .pack_length = put_blur(), .pipe = pipe, .pipe_length = sizeof pipe,
    };
    struct fv_report report;

    for (uint32_t i = 0; i < 2 * PIXELS; i++)
        fv_put_word(memory + 4 * i, i < PIXELS ? pixel(i) : UINT32_MAX);
    fv_put_windows(windows, all);
    if (make(windows, limit) != FV_MADE || fv_image_limit(image) != limit
        || !fv_dispatch_1d(&lent.rings[0], fv_none(), 1, 1, 0))
        return 0;
    report = fv_turn_by(fv_turn, image, &lent);
    printf("limit %u: outcome %u, %u pixels blurred\n", limit, report.outcome, blurred());
    return report.status == FV_SERVED && report.outcome == outcome && blurred() == count;
}

int main(void)
{
    int right = blurs(FV_LIMIT_DEFAULT, FV_OUTCOME_DONE, INNER);

    right &= blurs(STEPS, FV_OUTCOME_DONE, INNER);            /* the WFI is the limit's step */
    right &= blurs(STEPS - 1, FV_OUTCOME_STEPS, INNER);       /* one fewer: stopped, what was stored stays */
    right &= blurs(4096, FV_OUTCOME_STEPS, (4096 - 2) / 10);  /* two steps before the first pixel, ten for each */
    return right ? 0 : 1;
}
