/* The work of a command that has no fault (1 to 10). */
#include "parts.h"

/* How far word i of a rectangle lies from its first: by rows from the top, each
 * from the left. */
static uint32_t word_place(struct ind_size size, uint32_t stride, uint32_t i)
{
    return i / size.width * stride + i % size.width * WORD;
}

/* From arg1 to arg0, as if every word were read before any is written: from the
 * last word if they move higher, else from the first. NOTES.md tells why that is
 * enough. */
static void copy_rectangle(const struct ind_window *window,
                           const struct ind_command *command,
                           struct ind_size size, uint32_t stride)
{
    uint32_t words = size.width * size.height; /* 0 of an empty rectangle */
    int higher = command->arg0 > command->arg1;

    for (uint32_t i = 0; i < words; i++) {
        uint32_t at = word_place(size, stride, higher ? words - 1 - i : i);
        ind_store(window, command->arg0 + at, WORD,
                  ind_load(window, command->arg1 + at, WORD));
    }
}

static void write_payload(const struct ind_window *window,
                          const struct ind_command *command)
{
    for (uint32_t i = 0; i < command->len; i++)
        ind_store(window, command->arg0 + WORD * i, WORD,
                  ind_get(command->payload + WORD * i, WORD));
}

static void read_to_pipe(const struct ind_window *window,
                         const struct ind_command *command, uint8_t *pipe)
{
    for (uint32_t i = 0; i < command->len; i++)
        ind_put(pipe + WORD * i, WORD,
                ind_load(window, command->arg0 + WORD * i, WORD));
}

/* Rows of an empty rectangle do nothing, and their addresses, which may wrap,
 * are not used. */
static void fill_rectangle(const struct ind_window *window,
                           const struct ind_command *command, uint32_t stride)
{
    struct ind_size size = ind_rectangle_size(command);

    for (uint32_t y = 0; y < size.height; y++) {
        uint32_t dst = command->arg0 + y * stride;
        for (uint32_t x = 0; x < size.width; x++)
            ind_store(window, dst + WORD * x, WORD, command->arg2);
    }
}

/* That there is such a kernel was seen to under outcome 10. */
static uint32_t dispatch(const struct ind_window *window,
                         const struct ind_command *command,
                         const struct ind_lent *lent, uint32_t limit,
                         struct ind_stop *stop)
{
    struct ind_kernel kernel;

    if (!ind_kernel_extent(lent->pack, lent->pack_len, command->arg2, &kernel))
        return IND_BAD_DISPATCH;
    return ind_dispatch(&kernel, window, command->arg0, command->arg1, limit,
                        stop);
}

/* Gives 0, or a dispatch's 11 to 14 and where it stopped. */
uint32_t ind_work(struct ind_device *device, uint32_t ring,
                  const struct ind_command *command,
                  const struct ind_lent *lent, struct ind_stop *stop)
{
    struct ind_ring *own = &device->rings[ring];
    const struct ind_window window = {
        lent->memory, own->window_start, own->window_length
    };
    const struct ind_size one_row = {command->len, 1};

    switch (command->opcode) {
    case WRITE_MEM:
        write_payload(&window, command);
        break;
    case READ_MEM:
        read_to_pipe(&window, command, lent->pipe);
        break;
    case COPY_BUFFER:
        copy_rectangle(&window, command, one_row, WORD * command->len);
        break;
    case FILL_RECT:
        fill_rectangle(&window, command, own->frame.stride);
        break;
    case BLIT:
        copy_rectangle(&window, command, ind_rectangle_size(command),
                       own->frame.stride);
        break;
    case SET_FB:
        own->frame = ind_frame_asked(command);
        break;
    case DISPATCH_1D:
        return dispatch(&window, command, lent, device->limit, stop);
    default: /* BARRIER: each command ends in its turn anyway */
        break;
    }
    return IND_DONE;
}
