#include "cases/sights.h"

#include <stdlib.h>
#include <string.h>

#include "device/image.h"

const char *const sight_names[SIGHTS] = {
    [SEEN_IRQ] = "IRQ reported",
    [SEEN_NO_IRQ] = "IRQ asked for and not reported",
    [SEEN_WAIT] = "a wait that was met",
    [SEEN_WAIT_EQUAL] = "a target that is just what the slot holds",
    [SEEN_WAIT_AND_EMIT] = "wait and emit together",
    [SEEN_FAULTY_WAIT] = "a faulty header with a wait",
    [SEEN_LAST_SLOT] = "a slot raised to 4,294,967,295",
    [SEEN_FULL_OFF] = "outcome 5 of a transfer not in fours",
    [SEEN_WORDS] = "words read",
    [SEEN_MEMORY] = "memory changed",
    [SEEN_KEPT_STORES] = "memory changed by a kernel that stopped",
    [SEEN_THREADS] = "a dispatch of several threads",
    [SEEN_LAST_STEP] = "a thread ended by the limit's step",
    [SEEN_STEP_MORE] = "outcome 14 where one step more would be a WFI",
    [SEEN_LATER_RING] = "a ring served after one that was not ready",
    [SEEN_RING_END] = "a command that ends with its ring",
    [SEEN_REWRITTEN] = "a held flag, an unset frame's words or an edition "
        "written anew",
    [SEEN_LEN_0] = "a transfer of len 0, done",
    [SEEN_LEN_0_OUTSIDE] = "a transfer of len 0, outcome 8",
    [SEEN_LEN_255] = "a transfer of len 255, done",
    [SEEN_WINDOW_END] = "a transfer up to the window's end, done",
    [SEEN_PAST_END] = "a transfer one word past the window's end",
    [SEEN_EMPTY] = "an empty rectangle, done",
    [SEEN_EMPTY_FAULTY] = "an empty rectangle, outcome 6 or 7",
    [SEEN_FULL_WIDTH] = "a rectangle as wide as the stride, done",
    [SEEN_SIDE_64] = "64 groups or threads, run",
    [SEEN_SIDE_65] = "65 groups or threads",
    [SEEN_LAST_KERNEL] = "the last of several kernels, run",
    [SEEN_NEXT_KERNEL] = "the kernel after the last",
    [SEEN_FIRST_TAKEN] = "the first command that is counted",
    [SEEN_BOTH_ROUND] = "a ring's and an outcome's count gone round together",
    [SEEN_SUMS_ROUND] = "sums of counts equal only modulo 4,294,967,296",
    [SEEN_FULL_RING] = "a payload that ends a ring of 65,536 bytes, written",
    [SEEN_FULL_CODE] = "a kernel that ends a code of 16,384 words, done"
};

struct ind_window window_again(const struct served *v)
{
    const struct ind_ring *own = &v->device.rings[v->report.ring];
    const struct piece *memory = &v->before->pieces[PIECE_MEMORY];
    const struct ind_window window = {
        malloc(memory->length + 1), own->window_start, own->window_length
    };

    if (window.memory == NULL)
        abort();
    memcpy(window.memory, memory->bytes, memory->length);
    return window;
}

static int memory_changed(const struct served *v)
{
    const struct piece *memory = &v->before->pieces[PIECE_MEMORY];

    return memcmp(memory->bytes, v->after->pieces[PIECE_MEMORY].bytes,
                  memory->length) != 0;
}

/* The image would have been written anew though nothing else had changed. */
static int rewritten(const struct served *v)
{
    uint8_t again[IND_IMAGE_BYTES];

    ind_image_encode(&v->device, again);
    return memcmp(v->before->pieces[PIECE_DEVICE].bytes, again, sizeof again)
        != 0;
}

static void see_header(const struct served *v, uint64_t *counts)
{
    const struct ind_command *command = &v->command;
    const struct ind_report *report = &v->report;
    int fault = ind_header_fault(command) != IND_DONE;
    int waits = (command->flags & FLAG_WAIT) != 0;
    size_t end = (size_t)v->device.rings[report->ring].cursor + command->size;

    counts[SEEN_LAST_SLOT] += report->fence == UINT32_MAX;
    counts[SEEN_IRQ] += report->irq != 0;
    counts[SEEN_NO_IRQ] += (command->flags & FLAG_IRQ) && report->irq == 0;
    counts[SEEN_WAIT] += waits && !fault;
    counts[SEEN_WAIT_EQUAL] += waits && !fault && command->target != 0
        && command->target == v->device.slots[command->rdst];
    counts[SEEN_WAIT_AND_EMIT] += waits && report->emitted != 0;
    counts[SEEN_FAULTY_WAIT] += waits && fault;
    counts[SEEN_LATER_RING] += report->ring != v->device.marker;
    counts[SEEN_RING_END] +=
        end == v->before->pieces[PIECE_RING + report->ring].length;
}

static uint64_t sum(const uint32_t *counts, uint32_t number)
{
    uint64_t all = 0;

    for (uint32_t i = 0; i < number; i++)
        all += counts[i];
    return all;
}

static void see_counts(const struct served *v, uint64_t *counts)
{
    uint64_t taken = sum(v->device.taken, IND_RINGS);
    uint64_t outcomes = sum(v->device.outcomes, IND_OUTCOMES);

    counts[SEEN_FIRST_TAKEN] += taken == 0 && outcomes == 0;
    counts[SEEN_BOTH_ROUND] += v->device.taken[v->report.ring] == UINT32_MAX
        && v->device.outcomes[v->report.outcome] == UINT32_MAX;
    counts[SEEN_SUMS_ROUND] += taken != outcomes;
}

static void see_transfer(const struct served *v, uint64_t *counts)
{
    const struct ind_command *command = &v->command;
    uint32_t outcome = v->report.outcome;
    const struct ind_ring *ring = &v->device.rings[v->report.ring];
    uint64_t end = (uint64_t)command->arg0 + WORD * command->len;
    uint64_t length = ring->window_length;
    int done = outcome == IND_DONE;

    counts[SEEN_FULL_RING] += done && command->payload != NULL
        && command->len != 0 && ring->cursor + command->size == IND_RING_MOST;
    counts[SEEN_FULL_OFF] += outcome == IND_SLOT_FULL
        && !ind_is_four(command->arg0);
    counts[SEEN_LEN_0] += done && command->len == 0;
    counts[SEEN_LEN_0_OUTSIDE] += outcome == IND_OUTSIDE_WINDOW
        && command->len == 0;
    counts[SEEN_LEN_255] += done && command->len == IND_LEN_MOST;
    counts[SEEN_WINDOW_END] += done && end == length && command->len != 0;
    counts[SEEN_PAST_END] += outcome == IND_OUTSIDE_WINDOW
        && end == length + WORD && command->len != 0;
    counts[SEEN_WORDS] += v->report.words_read != 0;
}

static void see_rectangle(const struct served *v, uint64_t *counts)
{
    struct ind_size size = ind_rectangle_size(&v->command);
    uint32_t stride = v->device.rings[v->report.ring].frame.stride;
    uint32_t outcome = v->report.outcome;
    int empty = size.width == 0 || size.height == 0;

    counts[SEEN_EMPTY] += empty && outcome == IND_DONE;
    counts[SEEN_EMPTY_FAULTY] += empty
        && (outcome == IND_NOT_FOURS || outcome == IND_NO_FRAME_ROOM);
    counts[SEEN_FULL_WIDTH] += !empty && outcome == IND_DONE
        && WORD * size.width == stride;
}

static void see_dispatch(const struct served *v, uint64_t *counts)
{
    const struct ind_command *command = &v->command;
    const struct piece *pack = &v->before->pieces[PIECE_PACK];
    uint32_t kernels = ind_get(pack->bytes, WORD);
    int ran = v->report.outcome == IND_DONE
        || v->report.outcome >= IND_NOT_LISTED;
    struct ind_kernel kernel;

    counts[SEEN_THREADS] += ran && command->arg0 * command->arg1 > 1;
    counts[SEEN_KEPT_STORES] += v->report.outcome >= IND_NOT_LISTED
        && memory_changed(v);
    counts[SEEN_SIDE_64] += ran && (command->arg0 == IND_SIDE_MOST
                                    || command->arg1 == IND_SIDE_MOST);
    counts[SEEN_SIDE_65] += command->arg0 == IND_SIDE_MOST + 1
        || command->arg1 == IND_SIDE_MOST + 1;
    counts[SEEN_LAST_KERNEL] += ran && kernels > 1
        && command->arg2 == kernels - 1;
    counts[SEEN_NEXT_KERNEL] += command->arg2 == kernels;
    counts[SEEN_FULL_CODE] += v->report.outcome == IND_DONE
        && ind_kernel_extent(pack->bytes, pack->length, command->arg2, &kernel)
        && kernel.first + kernel.words == IND_CODE_MOST;
}

void see_served(const struct served *v, uint64_t counts[SIGHTS])
{
    see_header(v, counts);
    see_counts(v, counts);
    counts[SEEN_MEMORY] += (uint64_t)memory_changed(v);
    counts[SEEN_REWRITTEN] += (uint64_t)rewritten(v);
    if (ind_header_fault(&v->command) != IND_DONE)
        return;
    switch (v->command.opcode) {
    case WRITE_MEM:
    case READ_MEM:
    case COPY_BUFFER:
        see_transfer(v, counts);
        break;
    case FILL_RECT:
    case BLIT:
        see_rectangle(v, counts);
        break;
    case DISPATCH_1D:
        see_dispatch(v, counts);
        break;
    default: /* BARRIER and SET_FB show nothing of their own */
        break;
    }
}
