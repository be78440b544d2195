/* record SEED COUNT: COUNT calls with the independent device's answers on
 * standard output, and what they met on standard error. A file with too few
 * served turns is no file to compare with: status 1. */
#include <inttypes.h>
#include <stdio.h>

#include "cases/cases.h"
#include "cases/number.h"
#include "cases/share.h"
#include "cases/tally.h"
#include "records/records.h"

/* A body's bytes: the whole set is to stay small. */
enum {
    LONGEST = 20000,
    FULL_LONGEST = 80000 /* of the first with a full ring or a full code */
};

static uint64_t by_kind[CASE_KINDS], bytes_written;
static struct share share;

/* A case that makes too long a record is passed over: 0. */
static int record_case(uint64_t seed, uint64_t number, struct call *before,
                       struct call *after)
{
    enum case_kind kind = draw_case(before, seed, number);

    call_copy(after, before);
    call_make(after, &independent);
    size_t most = tally_first_full(before, after) ? FULL_LONGEST : LONGEST;
    size_t bytes = record_write(stdout, before, after, most);
    if (bytes == 0)
        return 0;
    bytes_written += bytes;
    by_kind[kind]++;
    tally_call(before, after);
    share_call(&share, after);
    return 1;
}

static void tell(uint64_t drawn, uint64_t count)
{
    tally_print(stderr);
    fprintf(stderr, "cases by kind:");
    for (int i = 0; i < CASE_KINDS; i++)
        fprintf(stderr, " %s %" PRIu64, case_names[i], by_kind[i]);
    fprintf(stderr, "\n%" PRIu64 " bytes; %" PRIu64 " cases passed over; "
            "%d lines at 0\n", bytes_written, drawn - count, tally_missing());
}

int main(int argc, char **argv)
{
    struct call *before = call_new(), *after = call_new();
    uint64_t seed, count, drawn = 0, written = 0;

    if (argc != 3 || !number_of(argv[1], &seed)
        || !number_of(argv[2], &count)) {
        fprintf(stderr, "usage: record SEED COUNT > FILE\n");
        return 2;
    }
    while (written < count)
        written += (uint64_t)record_case(seed, drawn++, before, after);
    tell(drawn, count);
    int enough = share_enough(&share, "turns", stderr);
    call_free(before);
    call_free(after);
    if (fflush(stdout) != 0 || ferror(stdout)) {
        fprintf(stderr, "record: the file could not be written\n");
        return 1;
    }
    return !enough;
}
