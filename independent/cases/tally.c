#include "cases/tally.h"

#include <inttypes.h>
#include <stdlib.h>
#include <string.h>

#include "cases/copies.h"
#include "cases/fences.h"
#include "cases/lanes.h"
#include "cases/limits.h"
#include "cases/lines.h"
#include "cases/sights.h"
#include "cases/stops.h"
#include "cases/trace.h"
#include "device/image.h"

enum {
    REFUSALS = IND_REFUSED_PACK - IND_REFUSED_MEMORY + 1,
    WRONGS = IND_WRONG_WINDOWS - IND_WRONG_IMAGE + 1, OPCODES = 8,
    LIMITS = 9
};

/* Limits of steps are counted by spans, each up to one of these. */
static const uint32_t limits[LIMITS] = {
    IND_LIMIT_LEAST, IND_LIMIT_LEAST + 1, LIMIT_QUARTER - 1, LIMIT_QUARTER,
    IND_LIMIT_DEFAULT - 1, IND_LIMIT_DEFAULT, IND_LIMIT_MOST - 2,
    IND_LIMIT_MOST - 1, IND_LIMIT_MOST
};

static const struct {
    uint32_t opcode;
    const char *name;
} opcodes[OPCODES] = {
    { WRITE_MEM, "WRITE_MEM" }, { READ_MEM, "READ_MEM" },
    { FILL_RECT, "FILL_RECT" }, { BLIT, "BLIT" },
    { DISPATCH_1D, "DISPATCH_1D" }, { BARRIER, "BARRIER" },
    { COPY_BUFFER, "COPY_BUFFER" }, { SET_FB, "SET_FB" }
};

static struct {
    uint64_t calls, fresh[2], with[2][3], with_both[2]; /* by edition */
    uint64_t idle, refused[REFUSALS], refused_limit, wrong[WRONGS];
    uint64_t unequal_sums[REFUSALS], unequal_alone;
    uint64_t ring_round[IND_RINGS], outcome_round[IND_OUTCOMES];
    uint64_t outcome[IND_OUTCOMES], opcode_done[OPCODES], row[ROWS];
    uint64_t sight[SIGHTS], steps, most_steps, limit[LIMITS];
    uint64_t with_nulls, null[PIECES];
} count;

/* ---- calls ---- */

static void count_trace(const struct trace *trace)
{
    for (int i = 0; i < ROWS; i++)
        count.row[i] += trace->seen[i];
    count.steps += trace->steps;
    if (trace->steps > count.most_steps)
        count.most_steps = trace->steps;
    count.sight[SEEN_LAST_STEP] += (uint64_t)trace->last_step_ends;
    count.sight[SEEN_STEP_MORE] += (uint64_t)trace->step_more_ends;
}

static int ran(const struct served *v)
{
    return v->command.opcode == DISPATCH_1D
        && (v->report.outcome == IND_DONE
            || v->report.outcome >= IND_NOT_LISTED);
}

/* A count of 4,294,967,295 to which 1 is added. */
static void count_rounds(const struct served *v)
{
    uint32_t ring = v->report.ring, outcome = v->report.outcome;

    count.ring_round[ring] += v->device.taken[ring] == UINT32_MAX;
    count.outcome_round[outcome] += v->device.outcomes[outcome] == UINT32_MAX;
}

static struct served served_of(const struct call *before,
                               const struct call *after)
{
    struct served v = { .before = before, .after = after };

    ind_report_decode(after->pieces[PIECE_REPORT].bytes, &v.report);
    ind_image_decode(before->pieces[PIECE_DEVICE].bytes, &v.device);
    const struct piece *ring = &before->pieces[PIECE_RING + v.report.ring];
    if (!ind_command_whole(ring->bytes, ring->length,
                           v.device.rings[v.report.ring].cursor, &v.command))
        abort();
    return v;
}

/* A dispatch, run again on a copy of the memory. */
static void tally_run(const struct served *v)
{
    const struct piece *pack = &v->before->pieces[PIECE_PACK];
    struct ind_kernel kernel;
    struct trace trace;

    if (!ind_kernel_extent(pack->bytes, pack->length, v->command.arg2, &kernel))
        abort();
    struct ind_window window = window_again(v);
    trace_dispatch(&trace, &kernel, &window, &v->command, v->device.limit,
                   NULL);
    free(window.memory);
    count_trace(&trace);
    lanes_ran(&trace.lanes);
    count.limit[span_of(limits, v->device.limit)]++;
    if (v->report.outcome != IND_DONE)
        stops_served(v, &trace, &kernel);
}

static void tally_served(const struct call *before, const struct call *after)
{
    struct served v = served_of(before, after);

    count.outcome[v.report.outcome]++;
    count_rounds(&v);
    see_served(&v, count.sight);
    for (int i = 0; i < OPCODES; i++)
        count.opcode_done[i] += v.report.outcome == IND_DONE
            && opcodes[i].opcode == v.command.opcode;
    if (v.report.outcome == IND_DONE)
        copies_done(&v);
    if (ran(&v))
        tally_run(&v);
}

static void tally_nulls(const struct call *before)
{
    if (!before->nulls)
        return;
    count.with_nulls++;
    for (int i = 0; i < PIECES; i++)
        count.null[i] += (uint64_t)call_lends_empty(before, i);
}

static int limit_outside(uint32_t limit)
{
    return limit < IND_LIMIT_LEAST || limit > IND_LIMIT_MOST;
}

static void tally_making(const struct call *after, uint32_t answer)
{
    if (after->kind == CALL_FRESH) {
        count.fresh[answer != 0]++;
        return;
    }
    int second = after->kind == CALL_FRESH_EDITION_2;
    count.with[second][answer == 0 ? 0 : answer - IND_REFUSED_MEMORY + 1]++;
    count.with_both[second] += answer == IND_REFUSED_MEMORY
        && limit_outside(call_limit(after));
    if (second)
        fences_making(after);
}

/* Whether the call is not refused so with counts of 0. */
static int counts_alone(const struct call *before, uint32_t answer)
{
    struct call *mended = call_new();
    struct piece *image = &mended->pieces[PIECE_DEVICE];

    call_copy(mended, before);
    memset(image->bytes + WORD * IND_IMAGE_TAKEN, 0, WORD * IND_COUNTS);
    call_make(mended, &independent);
    int alone = call_answer(mended) != answer;
    call_free(mended);
    return alone;
}

static void tally_refused(const struct call *before, uint32_t answer)
{
    struct ind_device device;

    ind_image_decode(before->pieces[PIECE_DEVICE].bytes, &device);
    count.refused[answer - IND_REFUSED_MEMORY]++;
    count.refused_limit += answer == IND_REFUSED_STATE
        && limit_outside(device.limit);
    if (ind_counts_agree(&device))
        return;
    count.unequal_sums[answer - IND_REFUSED_MEMORY]++;
    count.unequal_alone += (uint64_t)counts_alone(before, answer);
}

static void tally_turn(const struct call *before, const struct call *after,
                       uint32_t answer)
{
    fences_turn(before, after);
    if (answer == IND_IDLE)
        count.idle++;
    else if (answer >= IND_REFUSED_MEMORY)
        tally_refused(before, answer);
    else
        tally_served(before, after);
}

void tally_call(const struct call *before, const struct call *after)
{
    uint32_t answer = call_answer(after);

    count.calls++;
    tally_nulls(before);
    if (answer >= IND_WRONG_IMAGE && answer <= IND_WRONG_WINDOWS)
        count.wrong[answer - IND_WRONG_IMAGE]++;
    else if (after->kind != CALL_TURN)
        tally_making(after, answer);
    else
        tally_turn(before, after, answer);
}

int tally_first_full(const struct call *before, const struct call *after)
{
    uint64_t seen[SIGHTS] = {0};

    if (after->kind != CALL_TURN || call_answer(after) != IND_SERVED)
        return 0;
    struct served v = served_of(before, after);
    see_served(&v, seen);
    return (seen[SEEN_FULL_RING] != 0 && count.sight[SEEN_FULL_RING] == 0)
        || (seen[SEEN_FULL_CODE] != 0 && count.sight[SEEN_FULL_CODE] == 0);
}

/* ---- the table ---- */

static int count_lines(FILE *out)
{
    int missing = 0;

    title(out, "calls with counts of commands whose sums differ");
    missing += lines(out, "refused %u", IND_REFUSED_MEMORY, count.unequal_sums,
                     IND_REFUSED_STATE - IND_REFUSED_MEMORY + 1);
    missing += line(out, "refused 102, by the counts alone",
                    count.unequal_alone);
    title(out, "calls in which a count of commands goes round to 0");
    missing += lines(out, "of ring %u", 0, count.ring_round, IND_RINGS);
    missing += lines(out, "of outcome %u", 0, count.outcome_round,
                     IND_OUTCOMES);
    return missing;
}

static int answer_lines(FILE *out, const char *name, const uint64_t counts[3])
{
    char full[32];
    int missing = 0;

    snprintf(full, sizeof full, "%s 0", name);
    missing += line(out, full, counts[0]);
    snprintf(full, sizeof full, "%s %%u", name);
    return missing + lines(out, full, IND_REFUSED_MEMORY, counts + 1, 2);
}

static int table_of(FILE *out)
{
    int missing = 0;

    title(out, "calls by what they answer");
    missing += line(out, "fresh 0", count.fresh[0]);
    missing += line(out, "fresh 101", count.fresh[1]);
    missing += answer_lines(out, "fresh_with", count.with[0]);
    missing += answer_lines(out, "fresh_edition_2", count.with[1]);
    missing += line(out, "idle", count.idle);
    missing += lines(out, "refused %u", IND_REFUSED_MEMORY, count.refused,
                     REFUSALS);
    lines(out, "wrong length %u", IND_WRONG_IMAGE, count.wrong, WRONGS);
    missing += lines(out, "outcome %u", 0, count.outcome, IND_OUTCOMES);
    title(out, "calls with outcome 0, by opcode");
    for (int i = 0; i < OPCODES; i++)
        missing += line(out, opcodes[i].name, count.opcode_done[i]);
    title(out, "calls with a limit of steps outside its bounds");
    missing += line(out, "fresh_with 101", count.with_both[0]);
    missing += line(out, "fresh_edition_2 101", count.with_both[1]);
    missing += line(out, "refused 102", count.refused_limit);
    missing += count_lines(out);
    title(out, "calls that ran a kernel, by the limit of steps");
    missing += span_lines(out, "limit", IND_LIMIT_LEAST, limits, count.limit,
                          LIMITS);
    missing += copies_lines(out);
    missing += stops_lines(out);
    missing += fences_lines(out);
    title(out, "calls that show");
    for (int i = 0; i < SIGHTS; i++)
        missing += line(out, sight_names[i], count.sight[i]);
    title(out, "calls in which an instruction is a step");
    for (int i = 0; i < ROWS; i++)
        missing += line(out, table[i].name, count.row[i]);
    return missing + lanes_lines(out);
}

/* Records hold no pointers, so there is nothing to tell of them here. */
static void print_nulls(FILE *out)
{
    if (count.with_nulls == 0)
        return;
    title(out, "empty pieces lent as NULL");
    for (int i = 0; i <= PIECE_WINDOWS; i++)
        line(out, piece_names[i], count.null[i]);
}

void tally_print(FILE *out)
{
    fprintf(out, "calls %" PRIu64 ", kernel steps %" PRIu64 ", at most %" PRIu64
            " in a call\n", count.calls, count.steps, count.most_steps);
    table_of(out);
    print_nulls(out);
}

int tally_missing(void)
{
    return table_of(NULL);
}
