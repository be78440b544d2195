/* bench list                           each work: name, unit, units in an amount of 1, amounts for a time and a count
 * bench time SIDE WORK AMOUNT          nanoseconds of a round, the best of several
 * bench sum SIDE WORK AMOUNT           the sum of what a round leaves
 * bench play SIDE WORK AMOUNT ROUNDS   plays so many rounds */
#include <stdio.h>
#include <stdlib.h>
#include <string.h>
#include <time.h>

#include "../independent/device/image.h"
#include "kernels.h"
#include "works.h"

static const struct side sides[] = {
    {"device", fv_fresh, fv_turn},
    {"independent", ind_fv_fresh, ind_fv_turn},
};

enum {
    ROW_PIXELS = SCENE_STRIDE / 4,
    MEMORY_ROWS = FV_MEMORY_MOST / SCENE_STRIDE,
    RING_COMMANDS = FV_RING_MOST / FV_HEADER_BYTES,
    THREADS = FV_GROUPS_MOST * FV_THREADS_MOST
};

static const struct work works[] = {
    {"idle, rings empty", "turn", 1, 100000, 200, queue_idle},
    {"idle, four rings wait", "turn", 1, 100000, 200, queue_waiting},
    {"BARRIER", "turn", 1, RING_COMMANDS, 200, queue_barriers},
    {"COPY_BUFFER of 255 words, to lower", "turn", 1, RING_COMMANDS, 200, queue_copies_to_lower},
    {"COPY_BUFFER of 255 words, to higher", "turn", 1, RING_COMMANDS, 200, queue_copies_to_higher},
    {"COPY_BUFFER of 255 words, a word lower", "turn", 1, RING_COMMANDS, 200, queue_copies_word_lower},
    {"COPY_BUFFER of 255 words, a word higher", "turn", 1, RING_COMMANDS, 200, queue_copies_word_higher},
    {"BLIT of 512 pixels a row, to lower", "word", ROW_PIXELS, MEMORY_ROWS / 2, 64, queue_blit_to_lower},
    {"BLIT of 512 pixels a row, to higher", "word", ROW_PIXELS, MEMORY_ROWS / 2, 64, queue_blit_to_higher},
    {"BLIT of 512 pixels a row, a row down", "word", ROW_PIXELS, MEMORY_ROWS / 2, 64, queue_blit_row_down},
    {"BLIT of 512 pixels a row, a pixel on", "word", ROW_PIXELS, MEMORY_ROWS / 2, 64, queue_blit_pixel_on},
    {"FILL_RECT of 512 pixels a row", "word", ROW_PIXELS, MEMORY_ROWS, 64, queue_fill},
    {"ALU kernel", "step", THREAD_STEPS, THREADS, 4, queue_alu},
    {"memory kernel", "step", THREAD_STEPS, THREADS, 4, queue_memory},
    {"vector kernel", "step", THREAD_STEPS, THREADS, 4, queue_vector},
    {"kernel of I32 sums", "step", THREAD_STEPS, THREADS, 4, queue_i32_sums},
    {"kernel of I16 sums", "step", THREAD_STEPS, THREADS, 4, queue_i16_sums},
    {"kernel of I8 sums", "step", THREAD_STEPS, THREADS, 4, queue_i8_sums},
};

enum { SIDES = sizeof sides / sizeof *sides, WORKS = sizeof works / sizeof *works, TRIES = 5 };

/* Of the processor: other programs' time is not in it. */
static double best_time(struct scene *scene)
{
    clock_t best = 0;

    for (int i = 0; i < TRIES; i++) {
        clock_t from = clock();
        scene_round(scene);
        clock_t took = clock() - from;
        best = i == 0 || took < best ? took : best;
    }
    return 1e9 * (double)best / CLOCKS_PER_SEC;
}

static int list(void)
{
    for (int i = 0; i < WORKS; i++)
        printf("%s\t%s\t%u\t%u\t%u\n", works[i].name, works[i].unit, works[i].units, works[i].amount, works[i].few);
    return 0;
}

static _Noreturn void usage(void)
{
    fputs("usage: bench list | time SIDE WORK AMOUNT | sum SIDE WORK AMOUNT | play SIDE WORK AMOUNT ROUNDS\n", stderr);
    exit(2);
}

static const struct side *side_of(const char *name)
{
    for (int k = 0; k < SIDES; k++)
        if (strcmp(name, sides[k].name) == 0)
            return &sides[k];
    usage();
}

static const struct work *work_of(const char *name)
{
    for (int i = 0; i < WORKS; i++)
        if (strcmp(name, works[i].name) == 0)
            return &works[i];
    usage();
}

/* A plain decimal number, from 1 to nine digits. */
static uint32_t number_of(const char *word)
{
    size_t digits = strspn(word, "0123456789");

    if (word[0] == '0' || digits == 0 || digits > 9 || word[digits] != '\0')
        usage();
    return (uint32_t)strtoul(word, NULL, 10);
}

int main(int count, char **words)
{
    const char *what = count > 1 ? words[1] : "";

    if (count == 2 && strcmp(what, "list") == 0)
        return list();
    int plays = strcmp(what, "play") == 0, times = strcmp(what, "time") == 0;
    if (count != 5 + plays || (!plays && !times && strcmp(what, "sum") != 0))
        usage();
    uint32_t rounds = plays ? number_of(words[5]) : 1;
    struct scene *scene = scene_new(side_of(words[2]));
    work_of(words[3])->queue(scene, number_of(words[4]));
    if (times) {
        printf("%.0f\n", best_time(scene));
        return 0;
    }
    for (uint32_t i = 0; i < rounds; i++)
        scene_round(scene);
    if (!plays)
        printf("%u\n", scene_sum(scene));
    return 0;
}
