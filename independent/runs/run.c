/* run CASES SEED COMMAND..: random inputs of the replay job, each handed to
 * COMMAND and to the independent device, and what they print compared.
 * run --one SEED CASE: one of these inputs on standard output. */
#include <errno.h>
#include <inttypes.h>
#include <stdio.h>
#include <string.h>

#include "cases/jobs.h"
#include "cases/number.h"
#include "runs/outputs.h"
#include "runs/spawn.h"

enum { AT_ONCE = 2, KEPT_MOST = 20 };

static uint64_t different;

static void keep_input(uint64_t seed, uint64_t number)
{
    const struct piece *input = draw_job(seed, number);
    char path[64];

    snprintf(path, sizeof path, "differs-%" PRIu64 "-%" PRIu64 ".in", seed,
             number);
    FILE *out = fopen(path, "wb");
    if (out == NULL
        || fwrite(input->bytes, 1, input->length, out) != input->length
        || fclose(out) != 0)
        fprintf(stderr, "run: cannot write %s\n", path);
    else
        printf("  its input: %s\n", path);
}

/* Ends one run and compares its output. */
static void settle(struct run *run, uint64_t seed)
{
    struct text got = run_end(run);

    if (got.ended && got.length == run->wanted.length
        && memcmp(got.bytes, run->wanted.bytes, got.length) == 0) {
        text_free(&got);
        text_free(&run->wanted);
        return;
    }
    different++;
    printf("seed %" PRIu64 " case %" PRIu64 " differs%s\n", seed, run->number,
           got.ended ? "" : " (ended by a signal)");
    if (different <= KEPT_MOST)
        keep_input(seed, run->number);
    text_free(&got);
    text_free(&run->wanted);
}

/* At most AT_ONCE runs are under way; the oldest is settled first. */
static int compare(uint64_t cases, uint64_t seed, char **command)
{
    struct run runs[AT_ONCE];

    if (!runs_open(runs, AT_ONCE))
        return 0;
    for (uint64_t n = 0; n < cases + AT_ONCE; n++) {
        struct run *run = &runs[n % AT_ONCE];
        if (n >= AT_ONCE && n - AT_ONCE < cases)
            settle(run, seed);
        if (n >= cases)
            continue;
        const struct piece *input = draw_job(seed, n);
        run->number = n;
        run->wanted = output_wanted(input);
        output_count(&run->wanted);
        if (!run_start(run, input, command)) {
            runs_close(runs, AT_ONCE);
            return 0;
        }
    }
    runs_close(runs, AT_ONCE);
    return 1;
}

static int one(uint64_t seed, uint64_t number)
{
    const struct piece *input = draw_job(seed, number);

    return fwrite(input->bytes, 1, input->length, stdout) != input->length
        || fflush(stdout) != 0;
}

int main(int argc, char **argv)
{
    uint64_t cases, seed, number;

    if (argc == 4 && strcmp(argv[1], "--one") == 0
        && number_of(argv[2], &seed) && number_of(argv[3], &number))
        return one(seed, number);
    if (argc < 4 || !number_of(argv[1], &cases) || !number_of(argv[2], &seed)) {
        fprintf(stderr, "usage: run CASES SEED COMMAND.. | run --one SEED CASE "
                "> FILE\n");
        return 2;
    }
    if (!compare(cases, seed, argv + 3)) {
        fprintf(stderr, "run: cannot run %s: %s\n", argv[3], strerror(errno));
        return 2;
    }
    outputs_print();
    int enough = outputs_enough();
    printf("%" PRIu64 " cases, %" PRIu64 " differ\n", cases, different);
    return different != 0 || !enough;
}
