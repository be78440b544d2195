/* whole COUNT SEED: random whole calls on the device of an archive (fv_fresh,
 * fv_fresh_with, fv_fresh_edition_2 and fv_turn) and on the independent one;
 * all they leave is compared. */
#include <inttypes.h>
#include <stdio.h>

#include "cases/cases.h"
#include "cases/number.h"
#include "cases/share.h"
#include "cases/tally.h"
#include "whole/whole.h"

static const struct calls archive = {
    fv_fresh, fv_fresh_with, fv_fresh_edition_2, fv_turn
};

static void tell(uint64_t seed, uint64_t number, int piece,
                 const struct call *got, const struct call *wanted)
{
    const struct piece *a = &got->pieces[piece], *b = &wanted->pieces[piece];
    size_t at = 0;

    while (at < b->length + GUARD - 1 && a->bytes[at] == b->bytes[at])
        at++;
    printf("seed %" PRIu64 " case %" PRIu64 ": %s differs at byte %zu of %zu: "
           "%02X, not %02X; answers %" PRIu32 " and %" PRIu32 "\n", seed,
           number, piece_names[piece], at, b->length, a->bytes[at],
           b->bytes[at], call_answer(got), call_answer(wanted));
}

int main(int argc, char **argv)
{
    struct call *before = call_new(), *got = call_new(), *wanted = call_new();
    uint64_t count, seed, different = 0;
    struct share share = { 0 };

    if (argc != 3 || !number_of(argv[1], &count)
        || !number_of(argv[2], &seed)) {
        fprintf(stderr, "usage: whole COUNT SEED\n");
        return 2;
    }
    for (uint64_t n = 0; n < count; n++) {
        draw_case(before, seed, n);
        draw_lengths(before, seed, n);
        /* In every second call: a pointer to no bytes has its guard to keep. */
        before->nulls = n % 2 == 1;
        call_copy(got, before);
        call_copy(wanted, before);
        call_make(got, &archive);
        call_make(wanted, &independent);
        tally_call(before, wanted);
        share_call(&share, wanted);
        int piece = call_difference(got, wanted);
        different += piece >= 0;
        if (piece >= 0)
            tell(seed, n, piece, got, wanted);
    }
    tally_print(stdout);
    int lent = share_nulls_enough(&share, stdout);
    int enough = share_enough(&share, "turns", stdout);
    printf("%" PRIu64 " calls, %" PRIu64 " differ\n", count, different);
    call_free(before);
    call_free(got);
    call_free(wanted);
    return different != 0 || !lent || !enough;
}
