#include "cases/counts.h"

/* What the sum over rings lacks to be that over outcomes. */
static uint32_t lack(const uint32_t counts[IND_COUNTS])
{
    uint32_t lacking = 0;

    for (uint32_t i = 0; i < IND_COUNTS; i++)
        lacking += i < IND_RINGS ? 0 - counts[i] : counts[i];
    return lacking;
}

/* Changes one count so that the sums are the same. */
static void balance(uint32_t counts[IND_COUNTS], uint32_t at)
{
    uint32_t lacking = lack(counts);

    counts[at] += at < IND_RINGS ? lacking : 0 - lacking;
}

/* ---- balanced ones ---- */

/* After some commands, most of which were done. */
static void few_counts(struct chance *c, uint32_t counts[IND_COUNTS])
{
    for (uint32_t n = 1 + below(c, 6); n > 0; n--) {
        uint32_t ring = below(c, IND_RINGS);
        uint32_t outcome = mille(c, 900) ? IND_DONE : below(c, IND_OUTCOMES);
        counts[ring]++;
        counts[IND_RINGS + outcome]++;
    }
}

/* All of one ring, and all with one outcome: no sum goes round. */
static void single_counts(struct chance *c, uint32_t lead,
                          uint32_t counts[IND_COUNTS])
{
    uint32_t number = mille(c, 500) ? UINT32_MAX : edge_word(c);
    uint32_t ring = mille(c, 700) ? lead : below(c, IND_RINGS);
    uint32_t outcome = mille(c, 600) ? IND_DONE : below(c, IND_OUTCOMES);

    counts[ring] = number;
    counts[IND_RINGS + outcome] = number;
}

/* The leading ring's goes round next, and that of most outcomes up to the last
 * that may come. */
static void last_counts(struct chance *c, uint32_t lead, uint32_t last,
                        uint32_t counts[IND_COUNTS])
{
    for (uint32_t i = 0; i < IND_RINGS; i++)
        counts[i] = mille(c, i == lead ? 850 : 300) ? UINT32_MAX : below(c, 4);
    for (uint32_t i = IND_RINGS; i <= IND_RINGS + last; i++)
        counts[i] = UINT32_MAX - (mille(c, 800) ? 0 : below(c, 4));
    balance(counts, (lead + 1 + below(c, IND_RINGS - 1)) % IND_RINGS);
}

/* Of the rings and of the first outcomes, or of all. */
static void any_counts(struct chance *c, uint32_t counts[IND_COUNTS])
{
    uint32_t number = IND_RINGS + 1 + below(c, IND_OUTCOMES);

    for (uint32_t i = 0; i < number; i++)
        counts[i] = mille(c, 300) ? 0 : edge_word(c);
    balance(counts, below(c, number));
}

void draw_counts(struct chance *c, uint32_t lead, uint32_t last,
                 uint32_t counts[IND_COUNTS])
{
    uint32_t x = below(c, 1000);

    for (uint32_t i = 0; i < IND_COUNTS; i++)
        counts[i] = 0;
    if (x < 200)
        few_counts(c, counts);
    else if (x < 290)
        single_counts(c, lead, counts);
    else if (x < 430)
        last_counts(c, lead, last, counts);
    else if (x < 530)
        any_counts(c, counts);
}

/* ---- others ---- */

/* The sums then differ by one, by one bit, or by any number. */
static void add_to_one(struct chance *c, uint32_t counts[IND_COUNTS])
{
    static const uint32_t edge[8] = {
        1, 1, UINT32_MAX, UINT32_MAX, 0x100, 0x10000, 0xFFFF0000, 0x80000000
    };
    uint32_t at = below(c, IND_COUNTS);

    counts[at] += mille(c, 800) ? edge[below(c, 8)] : edge_word(c);
}

/* The sums would be the same if one count were left out, often the last ring's
 * or the last outcome's. */
static void forget_one(struct chance *c, uint32_t counts[IND_COUNTS])
{
    uint32_t at = below(c, IND_COUNTS);
    uint32_t others = 1 + below(c, IND_COUNTS - 1);

    if (mille(c, 500))
        at = mille(c, 500) ? IND_RINGS - 1 : IND_COUNTS - 1;
    counts[at] = 0;
    balance(counts, (at + others) % IND_COUNTS);
    counts[at] = mille(c, 500) ? 1 : edge_word(c);
}

/* From one count to another: still balanced. */
static void move_some(struct chance *c, uint32_t counts[IND_COUNTS])
{
    uint32_t from = below(c, IND_COUNTS), to = below(c, IND_COUNTS);

    counts[from] += edge_word(c);
    balance(counts, to);
}

void unbalance(struct chance *c, uint32_t counts[IND_COUNTS])
{
    uint32_t x = below(c, 1000);

    if (x < 500)
        add_to_one(c, counts);
    else if (x < 850)
        forget_one(c, counts);
    else
        move_some(c, counts);
}
