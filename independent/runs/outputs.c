#include "runs/outputs.h"

#include <inttypes.h>
#include <stdio.h>
#include <stdlib.h>
#include <string.h>

#include "cases/share.h"
#include "device/device.h"
#include "device/job.h"

enum { REFUSALS = 10, TURN_SPANS = 6 };

static struct {
    uint64_t refused[REFUSALS], refused_101, idle[TURN_SPANS];
    uint64_t turns, outcome[IND_OUTCOMES], fences, reads, rings[IND_RINGS];
    struct share cases;
} count;

struct text output_wanted(const struct piece *input)
{
    struct text text = { NULL, 0, 1 };
    FILE *out = open_memstream(&text.bytes, &text.length);

    if (out == NULL || ind_replay_bytes(input->bytes, input->length, out) != 0
        || fclose(out) != 0) {
        fprintf(stderr, "run: no memory for an output\n");
        exit(2);
    }
    return text;
}

void text_free(struct text *text)
{
    free(text->bytes);
    text->bytes = NULL;
}

/* 0, 1, 2 to 3, 4 to 7, 8 to 15, or more turns. */
static uint32_t span_of(uint32_t turns)
{
    uint32_t span = 0;

    for (; turns > 0 && span < TURN_SPANS - 1; turns /= 2)
        span++;
    return span;
}

static void count_line(const char *line)
{
    uint32_t turn, ring, outcome, fence, words;

    if (sscanf(line, "refused %" SCNu32, &turn) == 1) {
        if (turn < REFUSALS)
            count.refused[turn]++;
        else
            count.refused_101++;
    } else if (sscanf(line, "idle %" SCNu32, &turn) == 1) {
        count.idle[span_of(turn)]++;
    } else if (sscanf(line, "%" SCNu32 " %" SCNu32 " %" SCNu32 " %" SCNu32
                      " %" SCNu32, &turn, &ring, &outcome, &fence, &words)
               == 5) {
        count.turns++;
        count.rings[ring]++;
        count.outcome[outcome]++;
        count.fences += fence != 0;
        count.reads += words != 0;
    }
}

void output_count(const struct text *text)
{
    const char *at = text->bytes;
    uint64_t before = count.turns;

    while (*at != '\0') {
        count_line(at);
        at = strchr(at, '\n') + 1;
    }
    count.cases.all++;
    count.cases.served += count.turns > before;
}

int outputs_enough(void)
{
    return share_enough(&count.cases, "cases", stdout);
}

static void line(uint64_t value, const char *name, uint32_t number)
{
    printf("  %10" PRIu64 " %s %" PRIu32 "\n", value, name, number);
}

void outputs_print(void)
{
    static const char *const spans[TURN_SPANS] = {
        "0", "1", "2 to 3", "4 to 7", "8 to 15", "16 or more"
    };

    printf("outputs\n");
    for (uint32_t i = 0; i < REFUSALS; i++)
        line(count.refused[i], "refused", i);
    line(count.refused_101, "refused", 101);
    for (uint32_t i = 0; i < TURN_SPANS; i++)
        printf("  %10" PRIu64 " idle after %s turns\n", count.idle[i],
               spans[i]);
    printf("turns\n");
    for (uint32_t i = 0; i < IND_OUTCOMES; i++)
        line(count.outcome[i], "outcome", i);
    for (uint32_t i = 0; i < IND_RINGS; i++)
        line(count.rings[i], "on ring", i);
    printf("  %10" PRIu64 " with a fence\n  %10" PRIu64 " with words read\n"
           "  %10" PRIu64 " in all\n", count.fences, count.reads, count.turns);
}
