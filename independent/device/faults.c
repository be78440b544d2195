/* Outcomes 5 to 10. Each function gives the smallest that applies, or 0. */
#include "parts.h"

struct ind_size ind_rectangle_size(const struct ind_command *command)
{
    uint32_t packed = command->opcode == BLIT ? command->arg2 : command->arg1;
    struct ind_size size = {packed & 0xFFFF, packed >> 16};

    return size;
}

struct ind_frame ind_frame_asked(const struct ind_command *command)
{
    struct ind_frame frame = {1, command->arg0, command->arg1, command->arg2};

    return frame;
}

/* What SET_FB says of a frame; a held frame is judged by it too. */
uint32_t ind_frame_fault(const struct ind_frame *frame, uint32_t window_length)
{
    if (!ind_is_four(frame->base) || !ind_is_four(frame->stride))
        return IND_NOT_FOURS;
    if (frame->base >= window_length)
        return IND_OUTSIDE_WINDOW;
    if (frame->stride < IND_STRIDE_LEAST || frame->stride > IND_STRIDE_MOST
        || frame->format != 0)
        return IND_BAD_FRAME;
    return IND_DONE;
}

/* Both sides of a BLIT or COPY_BUFFER are addresses; else arg0 alone is. */
static int has_source(const struct ind_command *command)
{
    return command->opcode == BLIT || command->opcode == COPY_BUFFER;
}

static int addresses_in_fours(const struct ind_command *command)
{
    return ind_is_four(command->arg0)
        && (!has_source(command) || ind_is_four(command->arg1));
}

/* From each address of the command, so many bytes lie in the window. */
static int addresses_hold(const struct ind_command *command, uint64_t bytes,
                          uint32_t window_length)
{
    const struct ind_window window = {NULL, 0, window_length};

    return ind_reach(&window, command->arg0, bytes).inside
        && (!has_source(command)
            || ind_reach(&window, command->arg1, bytes).inside);
}

static uint32_t transfer_fault(const struct ind_command *command,
                               uint32_t window_length)
{
    if (!addresses_in_fours(command))
        return IND_NOT_FOURS;
    return addresses_hold(command, (uint64_t)WORD * command->len, window_length)
        ? IND_DONE : IND_OUTSIDE_WINDOW;
}

static uint32_t rectangle_fault(const struct ind_command *command,
                                const struct ind_ring *ring)
{
    struct ind_size size = ind_rectangle_size(command);

    if (!addresses_in_fours(command))
        return IND_NOT_FOURS;
    if (ring->frame.held == 0)
        return IND_NO_FRAME_ROOM;
    if (size.width == 0 || size.height == 0)
        return IND_DONE; /* no bytes at all */
    if (WORD * size.width > ring->frame.stride)
        return IND_NO_FRAME_ROOM;
    uint64_t bytes = (uint64_t)(size.height - 1) * ring->frame.stride
        + WORD * size.width; /* up to the last row's last pixel */
    return addresses_hold(command, bytes, ring->window_length)
        ? IND_DONE : IND_OUTSIDE_WINDOW;
}

static int side_fits(uint32_t count)
{
    return count >= 1 && count <= IND_SIDE_MOST;
}

static uint32_t dispatch_fault(const struct ind_command *command,
                               const struct ind_lent *lent)
{
    struct ind_kernel kernel;

    if (!side_fits(command->arg0) || !side_fits(command->arg1))
        return IND_BAD_DISPATCH;
    return ind_kernel_extent(lent->pack, lent->pack_len, command->arg2, &kernel)
        ? IND_DONE : IND_BAD_DISPATCH;
}

/* For a command without a header fault. */
uint32_t ind_work_fault(const struct ind_device *device, uint32_t ring,
                        const struct ind_command *command,
                        const struct ind_lent *lent)
{
    const struct ind_ring *own = &device->rings[ring];
    struct ind_frame asked = ind_frame_asked(command);

    if ((command->flags & FLAG_EMIT) != 0
        && ind_slot_full(device, command->rdst))
        return IND_SLOT_FULL;
    switch (command->opcode) {
    case WRITE_MEM:
    case READ_MEM:
    case COPY_BUFFER:
        return transfer_fault(command, own->window_length);
    case FILL_RECT:
    case BLIT:
        return rectangle_fault(command, own);
    case DISPATCH_1D:
        return dispatch_fault(command, lent);
    case SET_FB:
        return ind_frame_fault(&asked, own->window_length);
    default: /* BARRIER */
        return IND_DONE;
    }
}
