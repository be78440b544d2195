/* The device itself: a fresh one, the refusals of a call, and a turn. */
#include "parts.h"

static int window_fits(uint32_t start, uint32_t length, uint64_t memory_len)
{
    return ind_is_four(start) && ind_is_four(length)
        && (uint64_t)start + length <= memory_len;
}

static int memory_refused(const struct ind_device *device, uint64_t memory_len)
{
    if (memory_len > IND_MEMORY_MOST)
        return 1;
    for (uint32_t i = 0; i < IND_RINGS; i++) {
        const struct ind_ring *ring = &device->rings[i];
        if (!window_fits(ring->window_start, ring->window_length, memory_len))
            return 1;
    }
    return 0;
}

static int limit_fits(uint32_t limit)
{
    return limit >= IND_LIMIT_LEAST && limit <= IND_LIMIT_MOST;
}

/* 101, then 102, or 0. */
static uint32_t making_refusal(const struct ind_device *device,
                               uint64_t memory_len)
{
    if (memory_refused(device, memory_len))
        return IND_REFUSED_MEMORY;
    return limit_fits(device->limit) ? 0 : IND_REFUSED_STATE;
}

uint32_t ind_make(struct ind_device *device, uint64_t memory_len,
                  const uint32_t windows[IND_RINGS][2],
                  const struct ind_choice *choice)
{
    const struct ind_device empty = { /* all else is 0 */
        .limit = IND_LIMIT_DEFAULT, .edition = IND_EDITION_1
    };

    *device = empty;
    device->limit = choice->limit;
    device->edition = choice->edition;
    for (uint32_t i = 0; i < IND_SLOTS; i++)
        device->slots[i] = choice->first;
    for (uint32_t i = 0; i < IND_RINGS; i++) {
        device->rings[i].window_start = windows[i][0];
        device->rings[i].window_length = windows[i][1];
    }
    uint32_t refused = making_refusal(device, memory_len);
    if (refused != 0)
        *device = empty;
    return refused;
}

uint32_t ind_fresh_edition_2(struct ind_device *device, uint64_t memory_len,
                             const uint32_t windows[IND_RINGS][2],
                             uint32_t limit, uint32_t first)
{
    const struct ind_choice choice = {limit, IND_EDITION_2, first};

    return ind_make(device, memory_len, windows, &choice);
}

uint32_t ind_fresh_with(struct ind_device *device, uint64_t memory_len,
                        const uint32_t windows[IND_RINGS][2], uint32_t limit)
{
    const struct ind_choice choice = {limit, IND_EDITION_1, 0};

    return ind_make(device, memory_len, windows, &choice);
}

uint32_t ind_fresh(struct ind_device *device, uint64_t memory_len,
                   const uint32_t windows[IND_RINGS][2])
{
    return ind_fresh_with(device, memory_len, windows, IND_LIMIT_DEFAULT);
}

static int state_refused(const struct ind_device *device)
{
    if (device->marker >= IND_RINGS || !limit_fits(device->limit)
        || !ind_counts_agree(device))
        return 1;
    for (uint32_t i = 0; i < IND_RINGS; i++) {
        const struct ind_ring *ring = &device->rings[i];
        if (ring->cursor > IND_RING_MOST)
            return 1;
        if (ring->frame.held != 0
            && ind_frame_fault(&ring->frame, ring->window_length) != IND_DONE)
            return 1;
    }
    return 0;
}

static int rings_refused(const struct ind_device *device,
                         const size_t ring_len[IND_RINGS])
{
    for (uint32_t i = 0; i < IND_RINGS; i++) {
        if (ring_len[i] > IND_RING_MOST
            || ring_len[i] < device->rings[i].cursor)
            return 1;
    }
    return 0;
}

/* 101 to 105 in this order, or 0. */
static uint32_t refusal(const struct ind_device *device,
                        const struct ind_lent *lent)
{
    if (memory_refused(device, lent->memory_len))
        return IND_REFUSED_MEMORY;
    if (state_refused(device))
        return IND_REFUSED_STATE;
    if (rings_refused(device, lent->ring_len))
        return IND_REFUSED_RING;
    if (lent->pipe_len < IND_PIPE_LEAST)
        return IND_REFUSED_PIPE;
    if (ind_pack_faulty(lent->pack, lent->pack_len))
        return IND_REFUSED_PACK;
    return 0;
}

/* A faulty header does not wait: its slot may not even exist. */
static int ready(const struct ind_device *device, uint32_t ring,
                 const struct ind_lent *lent, struct ind_command *command)
{
    if (!ind_command_whole(lent->ring[ring], lent->ring_len[ring],
                           device->rings[ring].cursor, command))
        return 0;
    return ind_header_fault(command) != IND_DONE
        || (command->flags & FLAG_WAIT) == 0
        || ind_slot_met(device, command->rdst, command->target);
}

static uint32_t outcome_of(struct ind_device *device, uint32_t ring,
                           const struct ind_lent *lent,
                           const struct ind_command *command,
                           struct ind_stop *stop)
{
    uint32_t outcome = ind_header_fault(command);

    if (outcome == IND_DONE)
        outcome = ind_work_fault(device, ring, command, lent);
    if (outcome == IND_DONE)
        outcome = ind_work(device, ring, command, lent, stop);
    return outcome;
}

static void serve(struct ind_device *device, uint32_t ring,
                  const struct ind_lent *lent,
                  const struct ind_command *command, struct ind_report *report)
{
    uint32_t outcome = outcome_of(device, ring, lent, command, &report->stop);

    device->rings[ring].cursor += command->size;
    device->marker = (ring + 1) % IND_RINGS;
    ind_count(device, ring, outcome);
    report->ring = ring;
    report->outcome = outcome;
    /* A failed command still signals, unless it has no slot to signal in. */
    if ((command->flags & FLAG_EMIT) != 0
        && (outcome == IND_DONE || outcome > IND_SLOT_FULL)) {
        report->fence = ind_slot_emit(device, command->rdst);
        report->emitted = 1;
    }
    if (command->opcode == READ_MEM && outcome == IND_DONE)
        report->words_read = command->len;
    report->irq = (command->flags & FLAG_IRQ) != 0
        && (outcome == IND_DONE || outcome > IND_NO_SLOT);
}

uint32_t ind_turn(struct ind_device *device, uint8_t *memory, size_t memory_len,
                  const uint8_t *const ring[IND_RINGS],
                  const size_t ring_len[IND_RINGS], const uint8_t *pack,
                  size_t pack_len, uint8_t *pipe, size_t pipe_len,
                  struct ind_report *report)
{
    const struct ind_lent lent = {
        memory, memory_len, ring, ring_len, pack, pack_len, pipe, pipe_len
    };
    const struct ind_report nothing = {.status = 0}; /* and all else 0 too */

    *report = nothing;
    report->status = refusal(device, &lent);
    if (report->status != 0)
        return report->status;
    for (uint32_t looked = 0; looked < IND_RINGS; looked++) {
        uint32_t number = (device->marker + looked) % IND_RINGS;
        struct ind_command command;
        if (ready(device, number, &lent, &command)) {
            serve(device, number, &lent, &command, report);
            return IND_SERVED;
        }
    }
    report->status = IND_IDLE;
    return IND_IDLE;
}
