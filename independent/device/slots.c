/* The completion slots, by edition: when a wait is met, when a slot is full,
 * and its next number. */
#include "parts.h"

/* Any other number than 2 is edition 1. */
static int goes_round(const struct ind_device *device)
{
    return device->edition == IND_EDITION_2;
}

/* In edition 2 the slot may be past the target by less than half the range,
 * round the end or not. */
int ind_slot_met(const struct ind_device *device, uint32_t slot,
                 uint32_t target)
{
    uint32_t number = device->slots[slot];

    return goes_round(device) ? number - target < HALF_RANGE
                              : number >= target;
}

/* In edition 2 no slot is ever full. */
int ind_slot_full(const struct ind_device *device, uint32_t slot)
{
    return !goes_round(device) && device->slots[slot] == UINT32_MAX;
}

/* Adds 1 to a slot that is not full, 0 after 4,294,967,295; gives the new
 * number. */
uint32_t ind_slot_emit(struct ind_device *device, uint32_t slot)
{
    device->slots[slot] += 1;
    return device->slots[slot];
}
