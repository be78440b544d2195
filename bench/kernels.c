/* Dispatches of a kernel whose threads count s31 down over a body of a few
 * instructions. Up to 64 threads are one group, more are groups of 64. */
#include "kernels.h"

#include <string.h>

#include "fioravispa_code.h"
#include "works.h"

enum { COUNTER = 31 };

/* s5 is this thread's own 16 bytes: 16 times (group times threads, plus thread). */
static void put_lead(uint32_t *words)
{
    words[0] = fv_i(FV_ADDI, COUNTER, 0, LOOPS);
    words[1] = fv_r(FV_MUL, 5, 1, 3);
    words[2] = fv_r(FV_ADD, 5, 5, 2);
    words[3] = fv_i(FV_SHLI, 5, 5, 4);
}

static void queue_loop(struct scene *scene, uint32_t threads, const uint32_t body[BODY])
{
    uint32_t words[LEAD + BODY + TAIL];
    uint32_t *tail = words + LEAD + BODY;

    put_lead(words);
    memcpy(words + LEAD, body, 4 * BODY);
    tail[0] = fv_i(FV_ADDI, COUNTER, COUNTER, -1);
    tail[1] = fv_b(FV_BNE, COUNTER, 0, -4 * (BODY + 1));
    tail[2] = FV_WFI;
    scene_kernel(scene, words, LEAD + BODY + TAIL);
    uint32_t in_group = threads < FV_THREADS_MOST ? threads : FV_THREADS_MOST;
    need(fv_dispatch_1d(&scene->lent.rings[0], fv_none(), threads / in_group, in_group, 0), "a ring has no room");
    scene->turns = 1;
}

void queue_alu(struct scene *scene, uint32_t threads)
{
    const uint32_t body[BODY] = {
        fv_r(FV_ADD, 6, 6, 5),
        fv_i(FV_XORI, 7, 6, 291),
        fv_r(FV_MUL, 8, 7, 6),
        fv_i(FV_LSRI, 9, 8, 3),
        fv_r(FV_SUB, 6, 9, 7),
    };
    queue_loop(scene, threads, body);
}

void queue_memory(struct scene *scene, uint32_t threads)
{
    const uint32_t body[BODY] = {
        fv_i(FV_LW, 6, 5, 0),
        fv_i(FV_LH, 7, 5, 6),
        fv_r(FV_ADD, 6, 6, 7),
        fv_s(FV_SW, 6, 5, 4),
        fv_s(FV_SB, 6, 5, 1),
    };
    queue_loop(scene, threads, body);
}

void queue_vector(struct scene *scene, uint32_t threads)
{
    const uint32_t body[BODY] = {
        fv_r(FV_VLD, 1, 5, 0),
        fv_r(FV_VADD(FV_I8), 2, 2, 1),
        fv_r(FV_VMUL(FV_I16), 3, 2, 1),
        fv_r(FV_VXOR(FV_I32), 1, 1, 3),
        fv_r(FV_VST, 0, 5, 1),
    };
    queue_loop(scene, threads, body);
}

static void queue_sums(struct scene *scene, uint32_t threads, uint32_t vadd, uint32_t vsub)
{
    const uint32_t body[BODY] = {
        fv_r(FV_VLD, 1, 5, 0),
        fv_r(vadd, 2, 2, 1),
        fv_r(vsub, 3, 3, 2),
        fv_r(vadd, 1, 1, 3),
        fv_r(FV_VST, 0, 5, 1),
    };
    queue_loop(scene, threads, body);
}

void queue_i32_sums(struct scene *scene, uint32_t threads)
{
    queue_sums(scene, threads, FV_VADD(FV_I32), FV_VSUB(FV_I32));
}

void queue_i16_sums(struct scene *scene, uint32_t threads)
{
    queue_sums(scene, threads, FV_VADD(FV_I16), FV_VSUB(FV_I16));
}

void queue_i8_sums(struct scene *scene, uint32_t threads)
{
    queue_sums(scene, threads, FV_VADD(FV_I8), FV_VSUB(FV_I8));
}
