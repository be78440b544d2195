/* Who reached there? Where a kernel's thread is stopped, the report tells which thread it was, at which instruction it stood and
 * what it reached for. */
#include <stdio.h>
#include <string.h>
#include "fioravispa.h"
#include "fioravispa_code.h"

enum { ROWS = 8, COLUMNS = 8, STRIDE = 4 * COLUMNS, SIZE = ROWS * STRIDE, KERNELS = 4, WORDS = 5 };

static uint8_t image[FV_IMAGE_BYTES], memory[SIZE], commands[KERNELS * FV_HEADER_BYTES];
static uint8_t pack[192], pipe[FV_PIPE_LEAST];

/* A kernel that goes over a picture, a group for a row and a thread for a pixel: `access` is what it does there, `last` its
 * last word. */
static void over_a_picture(uint32_t words[WORDS], uint32_t access, uint32_t last)
{
    words[0] = fv_i(FV_SHLI, 5, 1, 5);                            /* s5 = row * STRIDE */
    words[1] = fv_i(FV_SHLI, 6, 2, 2);                            /* s6 = column * 4 */
    words[2] = fv_r(FV_ADD, 5, 5, 6);                             /* s5 = the pixel's address */
    words[3] = access;
    words[4] = last;
}

static size_t put_kernels(void)
{
    static uint32_t code[KERNELS][WORDS];
    struct fv_kernel kernels[KERNELS];

    over_a_picture(code[0], fv_s(FV_SW, 1, 5, 0), FV_WFI);        /* the pixel */
    over_a_picture(code[1], fv_s(FV_SW, 1, 5, 2), FV_WFI);        /* between two pixels */
    over_a_picture(code[2], fv_i(FV_LW, 7, 5, -4), FV_WFI);       /* the pixel to the left */
    over_a_picture(code[3], fv_s(FV_SW, 1, 5, 0), FV_MEMBAR);     /* the WFI is missing */
    for (size_t k = 0; k < KERNELS; k++)
        kernels[k] = (struct fv_kernel){code[k], WORDS};
    return fv_put_pack(pack, sizeof pack, kernels, KERNELS);
}

/* All of ring 0; what is not named is 0, so each turn serves, FV_SERVED. */
static const struct fv_report expected[KERNELS] = {
    /* One row too many: its first thread stores at the window's end. */
    {.outcome = FV_OUTCOME_ACCESS, .address = SIZE, .place = 12, .group = ROWS, .thread = 0},
    /* The last pixel's store begins inside and ends outside: the address is the window's length. */
    {.outcome = FV_OUTCOME_ACCESS, .address = SIZE, .place = 12, .group = ROWS - 1, .thread = COLUMNS - 1},
    /* -4 is an address near 2^32. */
    {.outcome = FV_OUTCOME_ACCESS, .address = 4294967292u, .place = 12, .group = 0, .thread = 0},
    /* Past the last word: the place is the kernel's length, and there is no address. */
    {.outcome = FV_OUTCOME_PLACE, .address = 0, .place = 4 * WORDS, .group = 0, .thread = 0},
};

int main(void)
{
    const struct fv_window windows[FV_RINGS] = {{0, SIZE}};
    uint8_t bytes[FV_WINDOWS_BYTES];
    struct fv_lent lent = {
        .memory = memory, .memory_length = sizeof memory, .rings = {{commands, 0, sizeof commands}},
        .pack = pack, .pack_length = put_kernels(), .pipe = pipe, .pipe_length = sizeof pipe,
    };
    int right = 1;

    fv_put_windows(bytes, windows);
    if (fv_fresh(image, sizeof image, bytes, sizeof bytes, sizeof memory) != FV_MADE)
        return 1;
    for (uint32_t kernel = 0; kernel < KERNELS; kernel++)
        fv_dispatch_1d(&lent.rings[0], fv_none(), kernel == 0 ? ROWS + 1 : ROWS, COLUMNS, kernel);
    for (uint32_t kernel = 0; kernel < KERNELS; kernel++) {
        struct fv_report report = fv_turn_by(fv_turn, image, &lent);

        printf("kernel %u outcome %u: group %u thread %u stopped at place %u, address %u\n", kernel, report.outcome, report.group,
               report.thread, report.place, report.address);
        right &= memcmp(&report, &expected[kernel], sizeof report) == 0;
    }
    return right ? 0 : 1;
}
