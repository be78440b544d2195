#include "cases/stops.h"

#include "cases/lines.h"

enum { STOPS = IND_OUTCOMES - IND_NOT_LISTED, NAME_MOST = 80 };

/* A stop's place. */
enum where { AT_START, FURTHER, PAST_END, WHERES };

static const char *const where_names[WHERES] = {
    "at place 0", "at another place", "at the place past the end"
};

/* Its group and thread. */
enum who {
    FIRST_OF_ALL, FIRST_GROUP, FIRST_THREAD, SAME_NUMBER, OTHER_NUMBER, WHOS
};

static const char *const who_names[WHOS] = {
    "group 0, thread 0", "group 0, another thread", "another group, thread 0",
    "another group, a thread of its number",
    "another group, a thread of another number"
};

/* How a load or store of outcome 13 lies to its window. */
enum reach { ACROSS, AT_END, PAST, NEGATIVE, EMPTY, REACHES };

static const char *const reach_names[REACHES] = {
    "across the window's end", "at the window's end", "past it", "negative",
    "in an empty window"
};

enum sign {
    LAST_OF_ALL, AFTER_OTHERS, LARGE_NUMBER, INPUTS_LOST, LATER_CODE,
    WITH_IMMEDIATE, WRAPPED, END_WRAPS, TOLD_0, AWAY,
    SIGNS
};

static const char *const sign_names[SIGNS] = {
    "the last thread of the last group, of several",
    "after threads that ended",
    "a group or a thread from 32 on",
    "s1 or s2 not as at the thread's start",
    "a kernel that does not start with the code",
    "13, an immediate that is not 0",
    "13, register and immediate wrap",
    "13, the end wraps",
    "13, address 0 told",
    "13, a window that does not start with the memory"
};

static struct {
    uint64_t where[STOPS][WHERES], who[STOPS][WHOS];
    uint64_t reach[ROWS][REACHES], sign[SIGNS];
} count;

static enum where where_of(const struct ind_stop *stop,
                           const struct ind_kernel *kernel)
{
    if (stop->place == WORD * kernel->words)
        return PAST_END;
    return stop->place == 0 ? AT_START : FURTHER;
}

static enum who who_of(const struct ind_stop *stop)
{
    if (stop->group == 0)
        return stop->thread == 0 ? FIRST_OF_ALL : FIRST_GROUP;
    if (stop->thread == 0)
        return FIRST_THREAD;
    return stop->thread == stop->group ? SAME_NUMBER : OTHER_NUMBER;
}

static enum reach reach_of(const struct access *access, uint32_t length)
{
    if (length == 0)
        return EMPTY;
    if (access->address <= length)
        return access->address == length ? AT_END : ACROSS;
    return access->address >= HALF_RANGE ? NEGATIVE : PAST;
}

static void count_access(const struct served *v, const struct trace *trace,
                         const struct ind_kernel *kernel)
{
    const struct ind_ring *ring = &v->device.rings[v->report.ring];
    struct access access = trace_access(trace, kernel);
    int32_t imm = (int32_t)access.instruction.imm;
    uint32_t held = access.address - (uint32_t)imm;

    count.reach[access.row][reach_of(&access, ring->window_length)]++;
    count.sign[WITH_IMMEDIATE] += imm != 0;
    count.sign[WRAPPED] += imm < 0 ? access.address > held
                                   : access.address < held;
    count.sign[END_WRAPS] += access.address > UINT32_MAX - access.bytes;
    count.sign[TOLD_0] += v->report.stop.address == 0;
    count.sign[AWAY] += ring->window_start != 0;
}

void stops_served(const struct served *v, const struct trace *trace,
                  const struct ind_kernel *kernel)
{
    const struct ind_stop *stop = &v->report.stop;
    uint32_t number = v->report.outcome - IND_NOT_LISTED;
    uint32_t threads = v->command.arg1, all = threads * v->command.arg0;

    count.where[number][where_of(stop, kernel)]++;
    count.who[number][who_of(stop)]++;
    count.sign[LAST_OF_ALL] += all > 1
        && stop->group * threads + stop->thread == all - 1;
    count.sign[AFTER_OTHERS] += trace->ended != 0;
    count.sign[LARGE_NUMBER] += (stop->group | stop->thread) >= 32;
    count.sign[INPUTS_LOST] += trace->last.scalar[1] != stop->group
        || trace->last.scalar[2] != stop->thread;
    count.sign[LATER_CODE] += kernel->first != 0;
    if (v->report.outcome == IND_BAD_ACCESS)
        count_access(v, trace, kernel);
}

/* ---- the table ---- */

static int named_line(FILE *out, const char *first, const char *second,
                      uint64_t value)
{
    char name[NAME_MOST];

    snprintf(name, sizeof name, "%s, %s", first, second);
    return line(out, name, value);
}

/* Only 12 and 14 can stand past the end. */
static int where_lines(FILE *out, uint32_t stop)
{
    static const char *const names[STOPS] = { "11", "12", "13", "14" };
    int missing = 0;

    for (int i = 0; i < WHERES; i++) {
        if (i != PAST_END || stop % 2 == 1)
            missing += named_line(out, names[stop], where_names[i],
                                  count.where[stop][i]);
    }
    for (int i = 0; i < WHOS; i++)
        missing += named_line(out, names[stop], who_names[i],
                              count.who[stop][i]);
    return missing;
}

/* Nothing that is one byte long lies across an end. */
static int reach_lines(FILE *out)
{
    static const int rows[8] = {
        ROW_LB, ROW_LH, ROW_LW, ROW_VLD, ROW_SB, ROW_SH, ROW_SW, ROW_VST
    };
    int missing = 0;

    for (int n = 0; n < 8; n++) {
        for (int i = n % 4 == 0 ? AT_END : ACROSS; i < REACHES; i++)
            missing += named_line(out, table[rows[n]].name, reach_names[i],
                                  count.reach[rows[n]][i]);
    }
    return missing;
}

int stops_lines(FILE *out)
{
    int missing = 0;

    title(out, "stops, by place, and by group and thread");
    for (uint32_t i = 0; i < STOPS; i++)
        missing += where_lines(out, i);
    title(out, "outcome 13, by how the load or store lies to the window");
    missing += reach_lines(out);
    title(out, "stops that show");
    for (int i = 0; i < SIGNS; i++)
        missing += line(out, sign_names[i], count.sign[i]);
    return missing;
}
