/* A device with all it is lent, on which a work's commands are played. */
#ifndef SCENE_H
#define SCENE_H

#include "fioravispa.h"

enum {
    SCENE_STRIDE = 2048,                        /* 512 pixels a row, 512 rows in the memory */
    SCENE_HALF = FV_MEMORY_MOST / 2
};

/* One of the two devices. */
struct side {
    const char *name;
    uint32_t (*fresh)(uint8_t *, size_t, const uint8_t *, size_t, uint64_t);
    fv_turn_function *turn;
};

struct scene {
    const struct side *side;
    struct fv_lent lent;
    uint8_t image[FV_IMAGE_BYTES];
    uint8_t start[FV_IMAGE_BYTES];              /* the image before the first turn */
    uint32_t turns;                             /* in one round */
    uint32_t status;                            /* that each of them must give */
};

/* A fresh device: each window is the whole memory of 1 MiB, each ring has the
 * frame of SCENE_STRIDE, nothing is queued, no kernel. */
struct scene *scene_new(const struct side *side);

/* A pack of one kernel. */
void scene_kernel(struct scene *scene, const uint32_t *words, uint32_t count);

/* The queued commands once more, from the start. */
void scene_round(struct scene *scene);

/* A number that tells memory and image from others. */
uint32_t scene_sum(const struct scene *scene);

void need(int holds, const char *what);

#endif
