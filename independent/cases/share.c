#include "cases/share.h"

#include <inttypes.h>

#include "device/device.h"

enum { LEAST_PART = 10 }; /* one of so many */

void share_call(struct share *share, const struct call *after)
{
    int accepted = call_answer(after) == IND_SERVED; /* of a making: made */

    if (after->kind == CALL_TURN) {
        share->all++;
        share->served += accepted;
    } else {
        share->makings++;
        share->made += accepted;
    }
    for (int i = 0; i < PIECES; i++) {
        int empty = call_lends_empty(after, i);
        share->empty += empty;
        share->nulls += empty && after->nulls;
    }
}

static int is_enough(uint64_t part, uint64_t all)
{
    return part > 0 && part >= (all + LEAST_PART - 1) / LEAST_PART;
}

static int makings_enough(const struct share *share, FILE *out)
{
    int enough = is_enough(share->made, share->makings);

    if (share->makings == 0)
        return 1;
    fprintf(out, "%" PRIu64 " of %" PRIu64 " makings made a device%s\n",
            share->made, share->makings, enough ? "" : ": too few");
    return enough;
}

int share_nulls_enough(const struct share *share, FILE *out)
{
    int enough = is_enough(share->nulls, share->empty);

    fprintf(out, "%" PRIu64 " of %" PRIu64 " empty pieces lent as NULL%s\n",
            share->nulls, share->empty, enough ? "" : ": too few");
    return enough;
}

int share_enough(const struct share *share, const char *what, FILE *out)
{
    int made = makings_enough(share, out);
    int enough = is_enough(share->served, share->all);

    fprintf(out, "%" PRIu64 " of %" PRIu64 " %s served a command%s\n",
            share->served, share->all, what,
            enough ? "" : ": too few");
    return made && enough;
}
