/* How many commands were taken, by ring and by outcome. Counts and their sums
 * are 32-bit numbers: after 4,294,967,295 comes 0. */
#include "parts.h"

static uint32_t sum(const uint32_t *counts, uint32_t number)
{
    uint32_t all = 0;

    for (uint32_t i = 0; i < number; i++)
        all += counts[i];
    return all;
}

/* Each command has one ring and one outcome, so the sums are the same. */
int ind_counts_agree(const struct ind_device *device)
{
    return sum(device->taken, IND_RINGS) == sum(device->outcomes, IND_OUTCOMES);
}

void ind_count(struct ind_device *device, uint32_t ring, uint32_t outcome)
{
    device->taken[ring] += 1;
    device->outcomes[outcome] += 1;
}
