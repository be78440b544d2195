/* The smallest whole program: ring 0 fills a square and reads one pixel of it back. */
#include <stdio.h>
#include "fioravispa.h"

enum { STRIDE = 256, COLOR = 0x00C03028 };

static uint8_t image[FV_IMAGE_BYTES];                               /* the device: the caller keeps it */
static uint8_t memory[64 * STRIDE], commands[1024];                 /* all else is lent for one turn */
static uint8_t pack[FV_PACK_LEAST], pipe[FV_PIPE_LEAST];

int main(void)
{
    const struct fv_window windows[FV_RINGS] = {{0, sizeof memory}}; /* of ring 0; the others' are empty */
    uint8_t bytes[FV_WINDOWS_BYTES];
    struct fv_lent lent = {
        .memory = memory, .memory_length = sizeof memory,
        .rings = {{commands, 0, sizeof commands}},                  /* 1 to 3 stay {0}: NULL, of length 0 */
        .pack = pack, .pack_length = fv_put_pack(pack, sizeof pack, NULL, 0), /* no kernels */
        .pipe = pipe, .pipe_length = sizeof pipe,
    };
    struct fv_ring *ring = &lent.rings[0];
    struct fv_report report;

    fv_put_windows(bytes, windows);
    if (fv_fresh(image, sizeof image, bytes, sizeof bytes, sizeof memory) != FV_MADE)
        return 1;
    fv_set_fb(ring, fv_none(), 0, STRIDE, 0);                       /* each gives 0 if it does not fit */
    fv_fill_rect(ring, fv_emit(5), 4, 16, 16, COLOR);               /* then adds 1 to slot 5 */
    fv_read_mem(ring, fv_none(), 4, 1);                             /* a word to the pipe's front */

    while ((report = fv_turn_by(fv_turn, image, &lent)).status == FV_SERVED) /* a turn takes one command */
        printf("ring %u outcome %u fence %u words %u\n", report.ring, report.outcome, report.fence,
               report.words_read);
    return report.status == FV_IDLE && fv_word(pipe, 0) == COLOR ? 0 : 1;
}
