/* Kernels: a thread, its steps, and a whole dispatch. */
#include "parts.h"

void ind_thread_start(struct ind_thread *thread, uint32_t group,
                      uint32_t thread_in_group, uint32_t threads,
                      uint32_t groups)
{
    const struct ind_thread zero = {{0}, {{0}}, 0, 0};

    *thread = zero;
    thread->scalar[1] = group;
    thread->scalar[2] = thread_in_group;
    thread->scalar[3] = threads;
    thread->scalar[4] = groups;
}

/* s0 reads 0 whatever a state handed in holds there. */
static uint32_t read_scalar(const struct ind_thread *thread, uint32_t number)
{
    return number == 0 ? 0 : thread->scalar[number];
}

static void write_scalar(struct ind_thread *thread, uint32_t number,
                         uint32_t value)
{
    if (number != 0)
        thread->scalar[number] = value;
}

/* A place before the kernel wraps to one far behind it: outside as well. */
static int inside(const struct ind_kernel *kernel, uint32_t place)
{
    return ind_is_four(place) && place < (uint64_t)WORD * kernel->words;
}

/* Only a taken branch has its place looked at. */
static uint32_t branch(struct ind_thread *thread,
                       const struct ind_instruction *in,
                       const struct ind_kernel *kernel)
{
    uint32_t place = thread->place + WORD;

    if (ind_compare(in->op, read_scalar(thread, in->rs1),
                    read_scalar(thread, in->rs2))) {
        place = thread->place + in->imm;
        if (!inside(kernel, place))
            return IND_BAD_PLACE;
    }
    thread->place = place;
    return IND_GOES_ON;
}

/* Whether all bytes lie in the window; if not, the first address outside. */
static int lies_inside(const struct ind_window *window, uint32_t address,
                       uint32_t bytes, uint32_t *outside)
{
    struct ind_reach reach = ind_reach(window, address, bytes);

    *outside = reach.outside;
    return reach.inside;
}

static uint32_t load_or_store(struct ind_thread *thread,
                              const struct ind_instruction *in,
                              const struct ind_window *window,
                              uint32_t *outside)
{
    uint32_t address = read_scalar(thread, in->rs1) + in->imm;

    if (!lies_inside(window, address, in->size, outside))
        return IND_BAD_ACCESS;
    if (in->kind == KIND_STORE) {
        ind_store(window, address, in->size, read_scalar(thread, in->rs2));
    } else {
        uint32_t value = ind_load(window, address, in->size);
        write_scalar(thread, in->rd, ind_sign_extend(value, 8 * in->size));
    }
    return IND_GOES_ON;
}

static uint32_t vector_load_or_store(struct ind_thread *thread,
                                     const struct ind_instruction *in,
                                     const struct ind_window *window,
                                     uint32_t *outside)
{
    uint32_t address = read_scalar(thread, in->rs1);

    if (!lies_inside(window, address, VECTOR_BYTES, outside))
        return IND_BAD_ACCESS;
    for (uint32_t i = 0; i < IND_VECTOR_WORDS; i++) {
        if (in->kind == KIND_VST)
            ind_store(window, address + WORD * i, WORD,
                      thread->vector[in->rs2][i]);
        else
            thread->vector[in->rd][i] =
                ind_load(window, address + WORD * i, WORD);
    }
    return IND_GOES_ON;
}

/* A vector rd, from two vectors or (VBCAST) from one scalar. */
static void write_vector(struct ind_thread *thread,
                         const struct ind_instruction *in)
{
    for (uint32_t i = 0; i < IND_VECTOR_WORDS; i++)
        thread->vector[in->rd][i] = in->kind == KIND_VBCAST
            ? read_scalar(thread, in->rs1)
            : ind_lanes(in->op, in->size, thread->vector[in->rs1][i],
                        thread->vector[in->rs2][i]);
}

/* The instructions that can't stop and don't branch. */
static void write_result(struct ind_thread *thread,
                         const struct ind_instruction *in)
{
    uint32_t first = read_scalar(thread, in->rs1);
    uint32_t second = in->takes_imm ? in->imm : read_scalar(thread, in->rs2);

    switch (in->kind) {
    case KIND_COMPUTE:
        write_scalar(thread, in->rd, ind_compute(in->op, first, second));
        break;
    case KIND_LUI:
        write_scalar(thread, in->rd, in->imm);
        break;
    case KIND_VEXTR:
        write_scalar(thread, in->rd, thread->vector[in->rs1][0]);
        break;
    case KIND_VECTOR:
    case KIND_VBCAST:
        write_vector(thread, in);
        break;
    default: /* MEMBAR and WFI write nothing */
        break;
    }
}

/* A listed instruction's work, and the place moved on; or 12 or 13. */
static uint32_t carry_out(struct ind_thread *thread,
                          const struct ind_instruction *in,
                          const struct ind_kernel *kernel,
                          const struct ind_window *window, uint32_t *outside)
{
    uint32_t stop = IND_GOES_ON;

    switch (in->kind) {
    case KIND_BRANCH:
        return branch(thread, in, kernel);
    case KIND_LOAD:
    case KIND_STORE:
        stop = load_or_store(thread, in, window, outside);
        break;
    case KIND_VLD:
    case KIND_VST:
        stop = vector_load_or_store(thread, in, window, outside);
        break;
    default:
        write_result(thread, in);
        break;
    }
    if (stop == IND_GOES_ON)
        thread->place += WORD;
    return stop;
}

/* Asked in this order: 14, off the end (12), 11, then branch or address. */
uint32_t ind_step(struct ind_thread *thread, const struct ind_kernel *kernel,
                  const struct ind_window *window, uint32_t limit,
                  uint32_t *outside)
{
    *outside = 0;
    if (thread->steps >= limit)
        return IND_STEPS_SPENT;
    if (!inside(kernel, thread->place))
        return IND_BAD_PLACE;
    struct ind_instruction in =
        ind_decode(ind_get(kernel->code + thread->place, WORD));
    if (in.kind == KIND_NOT_LISTED)
        return IND_NOT_LISTED;
    uint32_t stop = carry_out(thread, &in, kernel, window, outside);
    if (stop != IND_GOES_ON)
        return stop;
    thread->steps++;
    return in.kind == KIND_WFI ? IND_ENDED : IND_GOES_ON;
}

uint32_t ind_run(struct ind_thread *thread, const struct ind_kernel *kernel,
                 const struct ind_window *window, uint32_t limit,
                 uint32_t *outside)
{
    uint32_t answer;

    do
        answer = ind_step(thread, kernel, window, limit, outside);
    while (answer == IND_GOES_ON);
    return answer == IND_ENDED ? IND_DONE : answer;
}

uint32_t ind_dispatch(const struct ind_kernel *kernel,
                      const struct ind_window *window, uint32_t groups,
                      uint32_t threads, uint32_t limit, struct ind_stop *stop)
{
    const struct ind_stop none = {0, 0, 0, 0};

    *stop = none;
    for (uint32_t group = 0; group < groups; group++) {
        for (uint32_t number = 0; number < threads; number++) {
            struct ind_thread thread;
            uint32_t outside;
            ind_thread_start(&thread, group, number, threads, groups);
            uint32_t outcome = ind_run(&thread, kernel, window, limit,
                                       &outside);
            if (outcome != IND_DONE) {
                const struct ind_stop here = {
                    outside, thread.place, group, number
                };
                *stop = here;
                return outcome;
            }
        }
    }
    return IND_DONE;
}
