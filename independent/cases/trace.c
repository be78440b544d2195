#include "cases/trace.h"

#include <string.h>

/* Whether the word that a thread is at ends it. */
static int wfi_is_next(const struct ind_thread *thread,
                       const struct ind_kernel *kernel)
{
    return thread->place < WORD * kernel->words
        && ind_get(kernel->code + thread->place, WORD) == table[ROW_WFI].match;
}

/* A step of the last thread, which was like this before it. */
static void see_step(struct trace *trace, const struct ind_thread *before,
                     const struct ind_kernel *kernel, err_step *err)
{
    uint32_t word = ind_get(kernel->code + before->place, WORD);

    trace->seen[row_of(word)] = 1;
    lanes_step(&trace->lanes, before, word);
    if (err != NULL)
        err(&trace->last, before, word);
}

static uint32_t trace_thread(struct trace *trace,
                             const struct ind_kernel *kernel,
                             const struct ind_window *window, uint32_t limit,
                             err_step *err)
{
    struct ind_thread *thread = &trace->last;
    uint32_t answer = IND_GOES_ON;

    while (answer == IND_GOES_ON) {
        const struct ind_thread before = *thread;
        uint32_t outside;
        answer = ind_step(thread, kernel, window, limit, &outside);
        if (thread->steps != before.steps) /* a stop is no step */
            see_step(trace, &before, kernel, err);
    }
    trace->steps += thread->steps;
    trace->ended += answer == IND_ENDED;
    trace->last_step_ends |= answer == IND_ENDED && thread->steps == limit;
    trace->step_more_ends |= answer == IND_STEPS_SPENT
        && wfi_is_next(thread, kernel);
    return answer;
}

void trace_dispatch(struct trace *trace, const struct ind_kernel *kernel,
                    const struct ind_window *window,
                    const struct ind_command *command, uint32_t limit,
                    err_step *err)
{
    uint32_t all = command->arg0 * command->arg1, answer = IND_ENDED;

    memset(trace, 0, sizeof *trace);
    for (uint32_t n = 0; n < all && answer == IND_ENDED; n++) {
        ind_thread_start(&trace->last, n / command->arg1, n % command->arg1,
                         command->arg1, command->arg0);
        answer = trace_thread(trace, kernel, window, limit, err);
    }
}

struct access trace_access(const struct trace *trace,
                           const struct ind_kernel *kernel)
{
    const struct ind_thread *last = &trace->last;
    uint32_t word = ind_get(kernel->code + last->place, WORD);
    struct access access = {row_of(word), 0, 0, ind_decode(word)};
    const struct ind_instruction *in = &access.instruction;
    int wide = in->kind == KIND_VLD || in->kind == KIND_VST;

    access.address = (in->rs1 == 0 ? 0 : last->scalar[in->rs1]) + in->imm;
    access.bytes = wide ? VECTOR_BYTES : in->size;
    return access;
}
