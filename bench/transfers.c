/* Bytes moved in a window of 1 MiB. */
#include "works.h"

/* Copies of the most words, each behind the one before. */
static void queue_copies(struct scene *scene, uint32_t to, uint32_t from, uint32_t commands)
{
    for (uint32_t i = 0; i < commands; i++) {
        uint32_t at = i * 4 * FV_LEN_MOST % (SCENE_HALF - 4 * FV_LEN_MOST);
        need(fv_copy_buffer(&scene->lent.rings[0], fv_none(), to + at, from + at, FV_LEN_MOST), "a ring has no room");
    }
    scene->turns = commands;
}

void queue_copies_to_lower(struct scene *scene, uint32_t commands)
{
    queue_copies(scene, 0, SCENE_HALF, commands);
}

void queue_copies_to_higher(struct scene *scene, uint32_t commands)
{
    queue_copies(scene, SCENE_HALF, 0, commands);
}

void queue_copies_word_lower(struct scene *scene, uint32_t commands)
{
    queue_copies(scene, 0, 4, commands);
}

void queue_copies_word_higher(struct scene *scene, uint32_t commands)
{
    queue_copies(scene, 4, 0, commands);
}

/* One rectangle as wide as the frame. */
static void queue_blit(struct scene *scene, uint32_t to, uint32_t from, uint32_t rows)
{
    need(fv_blit(&scene->lent.rings[0], fv_none(), to, from, SCENE_STRIDE / 4, rows), "a ring has no room");
    scene->turns = 1;
}

void queue_blit_to_lower(struct scene *scene, uint32_t rows)
{
    queue_blit(scene, 0, SCENE_HALF, rows);
}

void queue_blit_to_higher(struct scene *scene, uint32_t rows)
{
    queue_blit(scene, SCENE_HALF, 0, rows);
}

void queue_blit_row_down(struct scene *scene, uint32_t rows)
{
    queue_blit(scene, SCENE_STRIDE, 0, rows);
}

void queue_blit_pixel_on(struct scene *scene, uint32_t rows)
{
    queue_blit(scene, 4, 0, rows);
}

void queue_fill(struct scene *scene, uint32_t rows)
{
    need(fv_fill_rect(&scene->lent.rings[0], fv_none(), 0, SCENE_STRIDE / 4, rows, 0x00A5C3E1), "a ring has no room");
    scene->turns = 1;
}
