/* The works that are measured. */
#ifndef WORKS_H
#define WORKS_H

#include "scene.h"

struct work {
    const char *name;
    const char *unit;                           /* what a number is given for */
    uint32_t units;                             /* in an amount of 1 */
    uint32_t amount;                            /* for a time */
    uint32_t few;                               /* for a count of instructions, which is slow */
    void (*queue)(struct scene *, uint32_t amount);
};

/* turns.c */
void queue_idle(struct scene *scene, uint32_t turns);
void queue_waiting(struct scene *scene, uint32_t turns);
void queue_barriers(struct scene *scene, uint32_t commands);
/* transfers.c */
void queue_copies_to_lower(struct scene *scene, uint32_t commands);
void queue_copies_to_higher(struct scene *scene, uint32_t commands);
void queue_copies_word_lower(struct scene *scene, uint32_t commands);
void queue_copies_word_higher(struct scene *scene, uint32_t commands);
void queue_blit_to_lower(struct scene *scene, uint32_t rows);
void queue_blit_to_higher(struct scene *scene, uint32_t rows);
void queue_blit_row_down(struct scene *scene, uint32_t rows);
void queue_blit_pixel_on(struct scene *scene, uint32_t rows);
void queue_fill(struct scene *scene, uint32_t rows);
/* kernels.c */
void queue_alu(struct scene *scene, uint32_t threads);
void queue_memory(struct scene *scene, uint32_t threads);
void queue_vector(struct scene *scene, uint32_t threads);
void queue_i32_sums(struct scene *scene, uint32_t threads);
void queue_i16_sums(struct scene *scene, uint32_t threads);
void queue_i8_sums(struct scene *scene, uint32_t threads);

#endif
