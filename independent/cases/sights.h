/* What a served command may show besides its outcome and opcode. */
#ifndef SIGHTS_H
#define SIGHTS_H

#include "cases/call.h"
#include "device/parts.h"

struct served {
    const struct call *before, *after;
    struct ind_device device; /* before */
    struct ind_command command;
    struct ind_report report;
};

enum sight {
    SEEN_IRQ, SEEN_NO_IRQ, SEEN_WAIT, SEEN_WAIT_EQUAL, SEEN_WAIT_AND_EMIT,
    SEEN_FAULTY_WAIT, SEEN_LAST_SLOT, SEEN_FULL_OFF, SEEN_WORDS, SEEN_MEMORY,
    SEEN_KEPT_STORES, SEEN_THREADS, SEEN_LAST_STEP, SEEN_STEP_MORE,
    SEEN_LATER_RING, SEEN_RING_END, SEEN_REWRITTEN, SEEN_LEN_0,
    SEEN_LEN_0_OUTSIDE, SEEN_LEN_255, SEEN_WINDOW_END, SEEN_PAST_END,
    SEEN_EMPTY, SEEN_EMPTY_FAULTY, SEEN_FULL_WIDTH,
    SEEN_SIDE_64, SEEN_SIDE_65, SEEN_LAST_KERNEL, SEEN_NEXT_KERNEL,
    SEEN_FIRST_TAKEN, SEEN_BOTH_ROUND, SEEN_SUMS_ROUND, SEEN_FULL_RING,
    SEEN_FULL_CODE,
    SIGHTS
};

extern const char *const sight_names[SIGHTS];

/* The served ring's window on a copy of the memory before, for its command to
 * be worked again. The copy is to be freed. */
struct ind_window window_again(const struct served *v);

/* Adds 1 to each thing that this command shows; SEEN_LAST_STEP and
 * SEEN_STEP_MORE are left out, as only the steps themselves tell them. */
void see_served(const struct served *v, uint64_t counts[SIGHTS]);

#endif
