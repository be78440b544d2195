/* A device with all it is lent. */
#include "scene.h"

#include <stdio.h>
#include <stdlib.h>
#include <string.h>

void need(int holds, const char *what)
{
    if (holds)
        return;
    fprintf(stderr, "bench: %s\n", what);
    exit(1);
}

static uint8_t *bytes_new(size_t length)
{
    uint8_t *bytes = (uint8_t *)calloc(length, 1);
    need(bytes != NULL, "there is no memory");
    return bytes;
}

/* Some bytes, doubled until they are enough: few instructions, as they may be counted. */
static void fill(uint8_t *bytes, size_t length)
{
    size_t done = 251;

    for (size_t i = 0; i < done; i++)
        bytes[i] = (uint8_t)(i * 7 + 1);
    for (; done < length; done *= 2)
        memcpy(bytes + done, bytes, done < length - done ? done : length - done);
}

static void make_device(struct scene *scene)
{
    const struct fv_window all = {0, FV_MEMORY_MOST}, windows[FV_RINGS] = {all, all, all, all};
    uint8_t bytes[FV_WINDOWS_BYTES];

    fv_put_windows(bytes, windows);
    need(scene->side->fresh(scene->image, FV_IMAGE_BYTES, bytes, FV_WINDOWS_BYTES, FV_MEMORY_MOST) == FV_MADE,
         "no fresh device");
}

/* The frames are set and the rings taken back to their start. */
static void set_frames(struct scene *scene)
{
    for (uint32_t q = 0; q < FV_RINGS; q++) {
        struct fv_ring *ring = &scene->lent.rings[q];
        need(fv_set_fb(ring, fv_none(), 0, SCENE_STRIDE, 0), "a ring has no room");
        need(fv_turn_by(scene->side->turn, scene->image, &scene->lent).outcome == FV_OUTCOME_DONE, "no frame");
        fv_restart(ring, scene->image, q);
    }
    memcpy(scene->start, scene->image, FV_IMAGE_BYTES);
}

struct scene *scene_new(const struct side *side)
{
    struct scene *scene = (struct scene *)bytes_new(sizeof *scene);
    struct fv_lent *lent = &scene->lent;

    scene->side = side;
    lent->memory = bytes_new(FV_MEMORY_MOST);
    lent->memory_length = FV_MEMORY_MOST;
    for (size_t q = 0; q < FV_RINGS; q++)
        lent->rings[q] = (struct fv_ring){bytes_new(FV_RING_MOST), 0, FV_RING_MOST};
    lent->pack = bytes_new(FV_PACK_MOST);
    lent->pack_length = FV_PACK_LEAST;
    lent->pipe = bytes_new(FV_PIPE_LEAST);
    lent->pipe_length = FV_PIPE_LEAST;
    fill(lent->memory, FV_MEMORY_MOST);
    make_device(scene);
    set_frames(scene);
    return scene;
}

void scene_kernel(struct scene *scene, const uint32_t *words, uint32_t count)
{
    const struct fv_kernel kernel = {words, count};
    uint8_t *pack = bytes_new(FV_PACK_MOST);

    scene->lent.pack_length = fv_put_pack(pack, FV_PACK_MOST, &kernel, 1);
    scene->lent.pack = pack;
}

void scene_round(struct scene *scene)
{
    memcpy(scene->image, scene->start, FV_IMAGE_BYTES);
    for (uint32_t i = 0; i < scene->turns; i++) {
        struct fv_report report = fv_turn_by(scene->side->turn, scene->image, &scene->lent);
        need(report.status == scene->status && report.outcome == FV_OUTCOME_DONE, "a turn went wrong");
    }
}

static uint32_t sum_of(uint32_t sum, const uint8_t *bytes, size_t length)
{
    for (size_t i = 0; i < length; i++)
        sum = (sum ^ bytes[i]) * 16777619u;
    return sum;
}

uint32_t scene_sum(const struct scene *scene)
{
    return sum_of(sum_of(2166136261u, scene->image, FV_IMAGE_BYTES), scene->lent.memory, FV_MEMORY_MOST);
}
