/* The part of self.c that has to do with stops: errors of where a kernel is
 * told to have stopped. */
#include <stdlib.h>
#include <string.h>

#include "cases/trace.h"
#include "whole/self.h"

/* Where words stand, in bytes. */
enum {
    OUTCOME = WORD * IND_REPORT_OUTCOME,
    ADDRESS = WORD * IND_REPORT_ADDRESS,
    STOP_BYTES = IND_REPORT_BYTES - ADDRESS
};

/* A dispatch that ran, once more. */
struct again {
    struct taken taken;
    struct ind_kernel kernel;
    struct trace trace;
};

/* On the memory before, which it changes. */
static struct again run_again(const struct turned *t)
{
    struct again again = { .taken = taken_by(t) };
    const struct taken *taken = &again.taken;
    const struct ind_window window = {
        memory_before, taken->ring.window_start, taken->ring.window_length
    };

    if (!ind_kernel_extent(t->pack, t->pack_len, taken->command.arg2,
                           &again.kernel))
        abort();
    trace_dispatch(&again.trace, &again.kernel, &window, &taken->command,
                   taken->limit, NULL);
    return again;
}

/* ---- the address ---- */

/* Of an access that starts inside. */
static uint32_t wrong_across(const struct again *a, const struct access *access)
{
    uint32_t length = a->taken.ring.window_length;
    int stores = access->instruction.kind == KIND_STORE
        || access->instruction.kind == KIND_VST;

    switch (MUTANT) {
    case 90: /* its own */
        return access->address;
    case 91: /* its last byte's */
        return access->address + access->bytes - 1;
    case 92: /* its end */
        return access->address + access->bytes;
    case 93: /* the window's last byte */
        return length - 1;
    case 94: /* its own, of stores alone */
        return stores ? access->address : length;
    case 95: /* of loads alone */
        return stores ? length : access->address;
    case 96: /* of 16 bytes alone */
        return access->bytes == VECTOR_BYTES ? access->address : length;
    case 97: /* the word in which the first byte outside lies */
        return length - (length - access->address) % WORD;
    default:
        return length;
    }
}

static uint32_t wrong_address(const struct again *a)
{
    struct access access = trace_access(&a->trace, &a->kernel);
    uint32_t told = a->taken.report.stop.address;
    uint32_t length = a->taken.ring.window_length;

    if (access.address < length)
        told = wrong_across(a, &access);
    if (MUTANT == 98) /* before the immediate */
        return told - access.instruction.imm;
    if (MUTANT == 99) /* always the window's length */
        return length;
    if (MUTANT == 100) /* from the memory's start */
        return told + a->taken.ring.window_start;
    if (MUTANT == 101 && length == 0)
        return 0;
    if (MUTANT == 102) /* as far as a memory can be */
        return told & (IND_MEMORY_MOST - 1);
    if (MUTANT == 103 && access.address > UINT32_MAX - access.bytes)
        return 0; /* the end wraps */
    return told;
}

/* The address with another outcome than 13. */
static uint32_t address_though_none(const struct again *a)
{
    uint32_t place = a->taken.report.stop.place;

    switch (a->taken.report.outcome) {
    case IND_NOT_LISTED: /* the word */
        return MUTANT == 104 ? ind_get(a->kernel.code + place, WORD) : 0;
    case IND_BAD_PLACE:
        return MUTANT == 105 ? place : 0;
    default: /* the steps */
        return MUTANT == 106 ? a->taken.limit : 0;
    }
}

/* ---- the place ---- */

/* Where a taken branch leads. */
static uint32_t branch_target(const struct again *a)
{
    uint32_t place = a->taken.report.stop.place;

    return place + ind_decode(ind_get(a->kernel.code + place, WORD)).imm;
}

static uint32_t wrong_place(const struct again *a)
{
    uint32_t place = a->taken.report.stop.place, end = WORD * a->kernel.words;
    uint32_t outcome = a->taken.report.outcome;
    int spent = outcome == IND_STEPS_SPENT;

    switch (MUTANT) {
    case 107: /* of the next instruction */
        return place + WORD;
    case 108: /* in words */
        return place / WORD;
    case 109: /* from the code's start */
        return place + WORD * a->kernel.first;
    case 110: /* where the branch leads */
        return outcome == IND_BAD_PLACE && place < end ? branch_target(a)
                                                       : place;
    case 111: /* past the end: of the last word */
        return !spent && place == end ? place - WORD : place;
    case 112: /* the same of 14 */
        return spent && place == end ? place - WORD : place;
    case 113: /* with 13 alone */
        return outcome == IND_BAD_ACCESS ? place : 0;
    default:
        return place;
    }
}

/* ---- group and thread ---- */

static void err_thread(struct again *a)
{
    const struct ind_thread *last = &a->trace.last;
    struct ind_stop *stop = &a->taken.report.stop;
    uint32_t group = stop->group, thread = stop->thread;

    switch (MUTANT) {
    case 114: /* exchanged */
        stop->group = thread;
        stop->thread = group;
        break;
    case 115: /* counted through the dispatch */
        stop->thread = group * a->taken.command.arg1 + thread;
        break;
    case 116: /* what the registers hold */
        stop->group = last->scalar[1];
        stop->thread = last->scalar[2];
        break;
    case 117: /* from 1 */
        stop->group++;
        stop->thread++;
        break;
    case 118: /* with 13 alone */
        if (a->taken.report.outcome != IND_BAD_ACCESS)
            stop->group = stop->thread = 0;
        break;
    default:
        break;
    }
}

static void err_stopped(struct turned *t)
{
    struct again again = run_again(t);
    struct ind_stop *stop = &again.taken.report.stop;

    stop->address = again.taken.report.outcome == IND_BAD_ACCESS
        ? wrong_address(&again) : address_though_none(&again);
    stop->place = wrong_place(&again);
    err_thread(&again);
    ind_report_encode(&again.taken.report, t->report);
}

/* ---- no stop ---- */

/* Of a dispatch that is done: where its last thread ended. */
static void err_done(struct turned *t)
{
    struct again again = run_again(t);
    struct ind_stop *stop = &again.taken.report.stop;

    if (MUTANT == 119) {
        stop->group = again.taken.command.arg0 - 1;
        stop->thread = again.taken.command.arg1 - 1;
    }
    if (MUTANT == 120)
        stop->place = again.trace.last.place;
    ind_report_encode(&again.taken.report, t->report);
}

/* Whether what the last stop told is told again. */
static int told_again(const struct turned *t, uint32_t outcome)
{
    int served = t->answer == IND_SERVED;

    switch (MUTANT) {
    case 121: /* of a dispatch that is done */
        return ran(t);
    case 122:
        return served && outcome == IND_OUTSIDE_WINDOW;
    case 123:
        return served && outcome == IND_BAD_DISPATCH;
    case 124: /* of a faulty header */
        return served && outcome >= IND_NO_OPCODE && outcome <= IND_NO_SLOT;
    case 125:
        return t->answer == IND_IDLE;
    case 126: /* of a refused turn */
        return t->answer >= IND_REFUSED_MEMORY;
    default:
        return 0;
    }
}

static void err_unstopped(struct turned *t, uint32_t outcome,
                          const uint8_t last[STOP_BYTES])
{
    if (ran(t))
        err_done(t);
    if (told_again(t, outcome))
        memcpy(t->report + ADDRESS, last, STOP_BYTES);
    if (MUTANT == 127) /* left as they were */
        memset(t->report + ADDRESS, 0xEE, STOP_BYTES);
}

void err_stops(struct turned *t)
{
    static uint8_t last[STOP_BYTES];
    uint32_t outcome = ind_get(t->report + OUTCOME, WORD);

    if (t->answer == IND_SERVED && outcome >= IND_NOT_LISTED) {
        memcpy(last, t->report + ADDRESS, STOP_BYTES);
        err_stopped(t);
    } else {
        err_unstopped(t, outcome, last);
    }
    if (MUTANT == 128) /* the byte behind the report */
        t->report[IND_REPORT_BYTES] ^= 1;
}
