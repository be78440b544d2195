/* A dispatch run again, to look at its steps or to err in them. */
#ifndef TRACE_H
#define TRACE_H

#include "cases/kernels/table.h"
#include "cases/lanes.h"
#include "device/parts.h"

struct trace {
    uint8_t seen[ROWS]; /* instructions that were a step */
    struct lanes_seen lanes;
    uint64_t steps;
    uint64_t ended; /* threads */
    int last_step_ends, step_more_ends;
    struct ind_thread last; /* as it ended or stopped */
};

/* Makes an error of a step of this word, done right, by a thread that was like
 * this before it. */
typedef void err_step(struct ind_thread *thread,
                      const struct ind_thread *before, uint32_t word);

/* Runs it on the window's memory, which it changes. NULL for no error. */
void trace_dispatch(struct trace *trace, const struct ind_kernel *kernel,
                    const struct ind_window *window,
                    const struct ind_command *command, uint32_t limit,
                    err_step *err);

/* The load or store at which the last thread stopped with 13. The immediate of
 * one of 16 bytes is 0. */
struct access {
    int row;
    uint32_t address, bytes;
    struct ind_instruction instruction;
};

struct access trace_access(const struct trace *trace,
                           const struct ind_kernel *kernel);

#endif
