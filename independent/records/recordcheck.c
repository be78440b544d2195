/* recordcheck FILE: makes the recorded calls again on the independent device
 * and compares what they leave. */
#include <inttypes.h>
#include <stdio.h>

#include "cases/share.h"
#include "records/records.h"

/* Makes one call again; 1 if it differs from the record. */
static int differs(uint64_t number, struct call *again,
                   const struct call *after)
{
    call_make(again, &independent);
    int piece = call_difference(again, after);
    if (piece >= 0)
        printf("call %" PRIu64 ": %s differs\n", number, piece_names[piece]);
    return piece >= 0;
}

int main(int argc, char **argv)
{
    struct call *before = call_new(), *after = call_new();
    FILE *in = argc == 2 ? fopen(argv[1], "rb") : NULL;
    uint64_t calls = 0, different = 0;
    struct share share = { 0 };
    int got = -1;

    if (in == NULL) {
        fprintf(stderr, "usage: recordcheck FILE\n");
        return 2;
    }
    while ((got = record_read(in, before, after)) == 1) {
        share_call(&share, after);
        different += (uint64_t)differs(calls++, before, after);
    }
    fclose(in);
    call_free(before);
    call_free(after);
    if (got < 0)
        printf("what follows call %" PRIu64 " is no record\n", calls);
    int enough = share_enough(&share, "turns", stdout);
    printf("%" PRIu64 " calls, %" PRIu64 " differ\n", calls, different);
    return got < 0 || different != 0 || !enough;
}
