#include "cases/editions.h"

#include "device/parts.h"

uint32_t any_edition(struct chance *c)
{
    return mille(c, 540) ? IND_EDITION_2 : IND_EDITION_1;
}

uint32_t odd_edition(struct chance *c)
{
    static const uint32_t words[9] = {
        0, 0, 3, 3, 0xFFFFFFFF, 0xFFFFFFFF, 0x02000000, 0x00000102, 0x00010002
    };
    uint32_t word = mille(c, 850) ? words[below(c, 9)] : edge_word(c);

    return word == IND_EDITION_1 || word == IND_EDITION_2 ? 0 : word;
}

uint32_t edged_number(struct chance *c)
{
    static const uint32_t numbers[10] = {
        UINT32_MAX, UINT32_MAX, UINT32_MAX, UINT32_MAX - 1, 0, 1,
        HALF_RANGE - 2, HALF_RANGE - 1, HALF_RANGE, HALF_RANGE + 1
    };

    return numbers[below(c, mille(c, 600) ? 6 : 10)];
}

uint32_t first_number(struct chance *c)
{
    return mille(c, 700) ? edged_number(c) : edge_word(c);
}

const uint32_t aparts[APARTS] = {
    0, 1, HALF_RANGE - 2, HALF_RANGE - 1, HALF_RANGE, HALF_RANGE + 1,
    UINT32_MAX - 1, UINT32_MAX
};

uint32_t edged_target(struct chance *c, const struct ind_device *device,
                      uint32_t slot, int met)
{
    uint32_t targets[APARTS], fit = 0;

    for (uint32_t i = 0; i < APARTS; i++) {
        targets[fit] = device->slots[slot] - aparts[i];
        fit += ind_slot_met(device, slot, targets[fit]) == met;
    }
    return fit != 0 ? targets[below(c, fit)] : device->slots[slot];
}
