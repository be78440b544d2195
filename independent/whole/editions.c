/* The part of self.c that has to do with editions: a making of edition 2, and
 * errors of either. */
#include <string.h>

#include "whole/self.h"
#include "whole/whole.h"

/* Where words stand, in bytes. */
enum {
    OUTCOME = WORD * IND_REPORT_OUTCOME,
    FENCE = WORD * IND_REPORT_FENCE,
    EMITTED = WORD * IND_REPORT_EMITTED,
    SLOTS = WORD * IND_IMAGE_SLOTS,
    LIMIT = WORD * IND_IMAGE_LIMIT,
    EDITION = WORD * IND_IMAGE_EDITION
};

static uint32_t edition_of(const uint8_t *image)
{
    return ind_get(image + EDITION, WORD);
}

/* ---- before a turn ---- */

void misread_edition(uint8_t *image)
{
    uint32_t edition = edition_of(image);

    if (MUTANT == 52 && edition == IND_EDITION_2) /* there is no edition 2 */
        ind_put(image + EDITION, WORD, IND_EDITION_1);
    if (MUTANT == 53 && edition == IND_EDITION_1) /* no edition 1 */
        ind_put(image + EDITION, WORD, IND_EDITION_2);
    if (MUTANT == 54 && edition != IND_EDITION_1) /* all others are 2 */
        ind_put(image + EDITION, WORD, IND_EDITION_2);
    if (MUTANT == 55) /* its low byte alone is read */
        ind_put(image + EDITION, WORD, edition & 0xFF);
}

/* Whether a wait is held to be met, by a wrong rule. */
static int held_met(int second, uint32_t number, uint32_t target)
{
    uint32_t past = number - target;

    switch (MUTANT) {
    case 56: /* edition 2 asks for at least the target */
        return number >= target;
    case 57: /* edition 1 goes round */
        return past < HALF_RANGE;
    case 58: /* half the range is met */
        return second ? past <= HALF_RANGE : number >= target;
    case 59: /* one below it is not */
        return second ? past < HALF_RANGE - 1 : number >= target;
    case 60: /* edition 2 asks for no more than the range's quarter */
        return second ? past < HALF_RANGE / 2 : number >= target;
    default:
        return second ? past < HALF_RANGE : number >= target;
    }
}

/* The ring with a head whose wait is met as the wrong rule has it: one that is
 * held to be met waits for just what the slot holds, another is left out. */
static const uint8_t *misjudged(const struct ind_device *device,
                                uint32_t number, const uint8_t *ring,
                                size_t *ring_len)
{
    static uint8_t copies[IND_RINGS][IND_RING_MOST];
    uint32_t cursor = device->rings[number].cursor;
    struct ind_command command;

    if (*ring_len > IND_RING_MOST || cursor > *ring_len
        || !ind_command_whole(ring, *ring_len, cursor, &command)
        || ind_header_fault(&command) != IND_DONE
        || (command.flags & FLAG_WAIT) == 0)
        return ring;
    uint32_t slot = device->slots[command.rdst];
    int met = ind_slot_met(device, command.rdst, command.target);
    int held = held_met(device->edition == IND_EDITION_2, slot, command.target);
    if (met && !held)
        *ring_len = cursor;
    if (met || !held)
        return ring;
    memcpy(copies[number], ring, *ring_len);
    ind_put(copies[number] + cursor + IND_HEADER_BYTES, WORD, slot);
    return copies[number];
}

void misjudge_waits(const uint8_t *image, const uint8_t *ring[IND_RINGS],
                    size_t ring_len[IND_RINGS])
{
    struct ind_device device;

    ind_image_decode(image, &device);
    for (uint32_t i = 0; i < IND_RINGS; i++)
        ring[i] = misjudged(&device, i, ring[i], &ring_len[i]);
}

/* ---- after a turn ---- */

/* The slot that has gone round to 0. */
static uint8_t *round_slot(struct turned *t)
{
    uint8_t *word = t->device + SLOTS;

    while (memcmp(word, t->before + (word - t->device), WORD) == 0)
        word += WORD;
    return word;
}

/* Errors of a fence that has gone round. */
static void err_round(struct turned *t, uint32_t outcome)
{
    uint8_t *slot = round_slot(t);

    switch (MUTANT) {
    case 61: /* the slot sticks */
        ind_put(slot, WORD, UINT32_MAX);
        ind_put(t->report + FENCE, WORD, UINT32_MAX);
        break;
    case 62: /* 0 is left out */
        ind_put(slot, WORD, 1);
        ind_put(t->report + FENCE, WORD, 1);
        break;
    case 63: /* a fence of 0 is none */
        ind_put(t->report + EMITTED, WORD, 0);
        break;
    case 64: /* a failed command emits none */
        if (outcome == IND_DONE)
            break;
        ind_put(slot, WORD, UINT32_MAX);
        ind_put(t->report + EMITTED, WORD, 0);
        break;
    default:
        break;
    }
}

static void err_served_edition(struct turned *t)
{
    uint32_t outcome = ind_get(t->report + OUTCOME, WORD);
    uint32_t edition = edition_of(t->before);
    int emitted = ind_get(t->report + EMITTED, WORD) != 0;

    if (MUTANT == 65) /* the edition forgotten */
        ind_put(t->device + EDITION, WORD, IND_EDITION_1);
    if (MUTANT == 66) /* written as it was */
        ind_put(t->device + EDITION, WORD, edition);
    if (MUTANT == 67) /* every command emits */
        ind_put(t->report + EMITTED, WORD, 1);
    if (MUTANT == 68 && outcome == IND_SLOT_FULL)
        ind_put(t->report + EMITTED, WORD, 1);
    if (MUTANT == 69 && edition != IND_EDITION_2) /* told in edition 2 alone */
        ind_put(t->report + EMITTED, WORD, 0);
    if (emitted && ind_get(t->report + FENCE, WORD) == 0)
        err_round(t, outcome);
}

void err_edition(struct turned *t)
{
    uint32_t edition = edition_of(t->before);
    int idle = t->answer == IND_IDLE;

    if (MUTANT >= 52 && MUTANT <= 55) /* it was misread: put back */
        ind_put(t->device + EDITION, WORD, t->answer != IND_SERVED ? edition
                : edition == IND_EDITION_2 ? IND_EDITION_2 : IND_EDITION_1);
    if (t->answer == IND_SERVED)
        err_served_edition(t);
    else if ((MUTANT == 70 && idle) || (MUTANT == 71 && !idle))
        ind_put(t->device + EDITION, WORD, IND_EDITION_1); /* written anew */
    else if ((MUTANT == 72 && idle) || (MUTANT == 73 && !idle))
        ind_put(t->report + EMITTED, WORD, 1);
}

/* ---- makings ---- */

void err_edition_1_made(uint8_t *device, uint32_t answer)
{
    if (answer >= IND_WRONG_IMAGE)
        return;
    if (MUTANT == 74) /* not written */
        ind_put(device + EDITION, WORD, 0);
    if (MUTANT == 75 && answer == 0)
        ind_put(device + EDITION, WORD, IND_EDITION_2);
}

static void put_slots(uint8_t *device, uint32_t from, uint32_t number)
{
    for (uint32_t i = from; i < IND_SLOTS; i++)
        ind_put(device + SLOTS + WORD * i, WORD, number);
}

static void err_made_2(uint8_t *device, uint32_t first)
{
    switch (MUTANT) {
    case 76: /* the starting number in slot 0 alone */
        put_slots(device, 1, 0);
        break;
    case 77: /* in all but the last */
        put_slots(device, IND_SLOTS - 1, 0);
        break;
    case 78: /* not heeded */
        put_slots(device, 0, 0);
        break;
    case 79: /* one more than it */
        put_slots(device, 0, first + 1);
        break;
    case 80:
        ind_put(device + EDITION, WORD, IND_EDITION_1);
        break;
    case 81: /* the limit not heeded */
        ind_put(device + LIMIT, WORD, IND_LIMIT_DEFAULT);
        break;
    default:
        break;
    }
}

static uint32_t err_edition_2(uint8_t *device, uint32_t limit, uint32_t first,
                              uint32_t answer)
{
    int outside = limit < IND_LIMIT_LEAST || limit > IND_LIMIT_MOST;

    if (answer == 0)
        err_made_2(device, first);
    if ((MUTANT == 82 && answer == IND_REFUSED_MEMORY)
        || (MUTANT == 83 && answer == IND_REFUSED_STATE))
        ind_put(device + EDITION, WORD, IND_EDITION_2);
    if ((MUTANT == 84 && answer == IND_REFUSED_MEMORY)
        || (MUTANT == 85 && answer == IND_REFUSED_STATE))
        put_slots(device, 0, first);
    if (MUTANT == 86 && answer == IND_REFUSED_STATE)
        ind_put(device + LIMIT, WORD, limit);
    if (MUTANT == 87 && answer == IND_REFUSED_MEMORY && outside)
        return IND_REFUSED_STATE; /* 102 before 101 */
    return answer;
}

uint32_t fv_fresh_edition_2(uint8_t *device, size_t device_len,
                            const uint8_t *windows, size_t windows_len,
                            uint64_t memory_len, uint32_t limit,
                            uint32_t first)
{
    if (MUTANT == 88 && windows_len != IND_WINDOWS_BYTES)
        return IND_WRONG_WINDOWS; /* asked first */
    if (MUTANT == 89 && windows == NULL)
        return IND_WRONG_IMAGE; /* refused before a length is asked */
    uint32_t answer = ind_fv_fresh_edition_2(device, device_len, windows,
                                             windows_len, memory_len, limit,
                                             first);
    return err_edition_2(device, limit, first, answer);
}
