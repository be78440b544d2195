/* The independent device in the archive's place, to try the comparison itself.
 * With MUTANT it makes one error, which the comparison has to tell. */
#include <stdlib.h>
#include <string.h>

#include "whole/self.h"
#include "whole/whole.h"

/* Where words stand, in bytes. */
enum {
    RING = WORD * IND_REPORT_RING,
    OUTCOME = WORD * IND_REPORT_OUTCOME,
    FENCE = WORD * IND_REPORT_FENCE,
    WORDS_READ = WORD * IND_REPORT_WORDS_READ,
    IRQ = WORD * IND_REPORT_IRQ,
    RING_BYTES = WORD * IND_IMAGE_RING_WORDS,
    HELD = WORD * IND_IMAGE_HELD,
    FRAME_BYTES = WORD * (IND_IMAGE_FORMAT + 1) - HELD,
    MARKER = WORD * IND_IMAGE_MARKER,
    LIMIT = WORD * IND_IMAGE_LIMIT,
    TAKEN = WORD * IND_IMAGE_TAKEN,
    OUTCOMES = WORD * IND_IMAGE_OUTCOMES,
    COUNTS_BYTES = WORD * IND_COUNTS,
    LAST_TAKEN = OUTCOMES - WORD,
    LAST_OUTCOME = TAKEN + COUNTS_BYTES - WORD,
    SHORT_REPORT = WORD * IND_REPORT_ADDRESS /* without a stop */
};

uint8_t memory_before[IND_MEMORY_MOST];

static void keep_memory(const uint8_t *memory, size_t memory_len)
{
    if (memory_len != 0 && memory_len <= IND_MEMORY_MOST)
        memcpy(memory_before, memory, memory_len);
}

struct taken taken_by(const struct turned *t)
{
    struct ind_device device;
    struct taken taken;

    ind_image_decode(t->before, &device);
    ind_report_decode(t->report, &taken.report);
    uint32_t number = taken.report.ring;
    taken.ring = device.rings[number];
    taken.limit = device.limit;
    if (!ind_command_whole(t->ring[number], t->ring_len[number],
                           taken.ring.cursor, &taken.command))
        abort();
    return taken;
}

int ran(const struct turned *t)
{
    uint32_t number = ind_get(t->report + RING, WORD);
    uint32_t outcome = ind_get(t->report + OUTCOME, WORD);
    const uint8_t *cursor = t->before
        + WORD * (IND_IMAGE_RING_WORDS * number + IND_IMAGE_CURSOR);

    return t->answer == IND_SERVED
        && (outcome == IND_DONE || outcome >= IND_NOT_LISTED)
        && t->ring[number][ind_get(cursor, WORD)] == DISPATCH_1D;
}

static void add(uint8_t *word, uint32_t more)
{
    ind_put(word, WORD, ind_get(word, WORD) + more);
}

/* Errors of a served turn: of its report, memory and pipe. */
static void err_served(struct turned *t)
{
    switch (MUTANT) {
    case 1:
        if (ind_get(t->report + FENCE, WORD) != 0)
            add(t->report + FENCE, 1);
        break;
    case 2:
        if (t->memory_len > 0)
            t->memory[t->memory_len - 1] ^= 1;
        break;
    case 3:
        t->pipe[t->pipe_len - 1] ^= 1;
        break;
    case 4:
        t->report[IRQ] ^= 1;
        break;
    case 5:
        if (ind_get(t->report + WORDS_READ, WORD) != 0)
            add(t->report + WORDS_READ, UINT32_MAX);
        break;
    case 8: /* the byte behind the memory */
        if (t->memory != NULL)
            t->memory[t->memory_len] ^= 1;
        break;
    default:
        break;
    }
}

/* Of its image. */
static void err_written(struct turned *t)
{
    uint32_t outcome = ind_get(t->report + OUTCOME, WORD);
    uint32_t ring = ind_get(t->report + RING, WORD);
    size_t next = (size_t)RING_BYTES * ((ring + 1) % IND_RINGS);

    if (MUTANT == 6) /* the frame of another ring, not written anew */
        memcpy(t->device + next + HELD, t->before + next + HELD, FRAME_BYTES);
    /* a faulty header does not pass the turn on */
    if (MUTANT == 7 && outcome >= IND_NO_OPCODE && outcome <= IND_NO_SLOT)
        memcpy(t->device + MARKER, t->before + MARKER, WORD);
}

/* Errors of a turn that is idle or refused. */
static void err_unserved(struct turned *t)
{
    int idle = t->answer == IND_IDLE;

    switch (MUTANT) {
    case 9:
        if (idle)
            t->device[HELD + 1] ^= 1;
        break;
    case 11: /* a refusal tells of a ring */
        if (!idle)
            t->report[RING] = 1;
        break;
    case 12: /* 103 and 104 in the wrong order */
        if (t->answer == IND_REFUSED_RING && t->pipe_len < IND_PIPE_LEAST) {
            t->answer = IND_REFUSED_PIPE;
            ind_put(t->report, WORD, t->answer);
        }
        break;
    case 13:
        if (!idle && t->pipe_len > 0)
            t->pipe[0] ^= 1;
        break;
    case 14:
        if (!idle && t->memory_len > 0)
            t->memory[0] ^= 1;
        break;
    default:
        break;
    }
}

/* The limit forgotten by a served turn, or one outside brought inside. */
static void err_limit(struct turned *t)
{
    if ((MUTANT == 23 && t->answer == IND_SERVED)
        || (MUTANT == 24 && t->answer == IND_REFUSED_STATE))
        ind_put(t->device + LIMIT, WORD, IND_LIMIT_DEFAULT);
}

/* ---- counts of commands ---- */

static void count(uint8_t *image, uint32_t ring, uint32_t outcome)
{
    add(image + TAKEN + (size_t)WORD * ring, 1);
    add(image + OUTCOMES + (size_t)WORD * outcome, 1);
}

static void count_instead(uint8_t *counted, uint8_t *other)
{
    add(counted, UINT32_MAX);
    add(other, 1);
}

/* Of a served turn. */
static void err_counted(struct turned *t)
{
    uint32_t outcome = ind_get(t->report + OUTCOME, WORD);
    uint32_t ring = ind_get(t->report + RING, WORD);
    size_t next = (size_t)WORD * ((ring + 1) % IND_RINGS);
    uint8_t *taken = t->device + TAKEN + (size_t)WORD * ring;
    uint8_t *had = t->device + OUTCOMES + (size_t)WORD * outcome;

    switch (MUTANT) {
    case 34: /* outcome 5 not counted */
        if (outcome == IND_SLOT_FULL)
            memcpy(t->device + TAKEN, t->before + TAKEN, COUNTS_BYTES);
        break;
    case 35: /* a ring's count sticks at the largest */
        if (ind_get(taken, WORD) == 0)
            ind_put(taken, WORD, UINT32_MAX);
        break;
    case 36: /* an outcome's does */
        if (ind_get(had, WORD) == 0)
            ind_put(had, WORD, UINT32_MAX);
        break;
    case 37: /* the next ring's */
        count_instead(taken, t->device + TAKEN + next);
        break;
    case 38: /* 14 counted as 13 */
        if (outcome == IND_STEPS_SPENT)
            count_instead(had, had - WORD);
        break;
    case 39: /* a faulty header counted as done */
        if (outcome >= IND_NO_OPCODE && outcome <= IND_NO_SLOT)
            count_instead(had, t->device + OUTCOMES);
        break;
    default:
        break;
    }
}

/* Of a turn that is idle or refused. */
static void err_uncounted(struct turned *t)
{
    int idle = t->answer == IND_IDLE;

    if ((MUTANT == 40 && idle)
        || (MUTANT == 41 && t->answer == IND_REFUSED_PACK))
        count(t->device, 0, 0); /* counted all the same */
    if (MUTANT == 42 && idle) /* they start anew */
        memset(t->device + TAKEN, 0, COUNTS_BYTES);
}

static uint64_t sum(const uint8_t *first, const uint8_t *end)
{
    uint64_t all = 0;

    for (; first < end; first += WORD)
        all += ind_get(first, WORD);
    return all;
}

/* Whether the sums are held to be different, by a wrong rule. */
static int held_unequal(const uint8_t *image)
{
    uint64_t taken = sum(image + TAKEN, image + OUTCOMES);
    uint64_t outcomes = sum(image + OUTCOMES, image + TAKEN + COUNTS_BYTES);

    switch (MUTANT) {
    case 43: /* not modulo 4,294,967,296 */
        return taken != outcomes;
    case 44: /* without the last outcome */
        outcomes -= ind_get(image + LAST_OUTCOME, WORD);
        break;
    case 45: /* without the last ring */
        taken -= ind_get(image + LAST_TAKEN, WORD);
        break;
    case 46: /* not compared */
        return 0;
    case 47: /* compared as 16 bits */
        return (uint16_t)taken != (uint16_t)outcomes;
    case 48: /* fewer by outcome let through */
        return (uint32_t)taken < (uint32_t)outcomes;
    default:
        break;
    }
    return (uint32_t)taken != (uint32_t)outcomes;
}

/* Brings counts into the image that are judged as the wrong rule has it. What
 * they were comes back after the turn. */
static void misjudge(uint8_t *image)
{
    int unequal = held_unequal(image);

    memset(image + TAKEN, 0, COUNTS_BYTES);
    add(image + TAKEN, (uint32_t)unequal);
}

static void restore_counts(struct turned *t)
{
    memcpy(t->device + TAKEN, t->before + TAKEN, COUNTS_BYTES);
    if (t->answer == IND_SERVED)
        count(t->device, ind_get(t->report + RING, WORD),
              ind_get(t->report + OUTCOME, WORD));
}

/* Of a making. */
static void err_made(uint8_t *device, const uint8_t *before, uint32_t answer)
{
    if (MUTANT == 49 && answer == 0) /* a fresh one is counted */
        count(device, 0, 0);
    if (MUTANT == 50 && answer == 0) /* the counts not written */
        memcpy(device + TAKEN, before + TAKEN, COUNTS_BYTES);
    /* the same where it is refused */
    if (MUTANT == 51 && answer != 0 && answer < IND_WRONG_IMAGE)
        memcpy(device + TAKEN, before + TAKEN, COUNTS_BYTES);
    err_edition_1_made(device, answer);
}

uint32_t fv_fresh(uint8_t *device, size_t device_len, const uint8_t *windows,
                  size_t windows_len, uint64_t memory_len)
{
    uint8_t before[IND_IMAGE_BYTES] = {0};

    if (MUTANT == 19 && windows == NULL)
        return IND_WRONG_IMAGE; /* refused before a length is asked */
    if (device_len == sizeof before)
        memcpy(before, device, sizeof before);
    if (MUTANT == 15) /* only the length's low word */
        memory_len &= UINT32_MAX;
    if (MUTANT == 16 && windows_len != IND_WINDOWS_BYTES)
        return IND_WRONG_WINDOWS; /* asked first */
    uint32_t answer = ind_fv_fresh(device, device_len, windows, windows_len,
                                   memory_len);
    if (MUTANT == 17 && answer == IND_REFUSED_MEMORY) /* image not written */
        memcpy(device, before, sizeof before);
    if (MUTANT == 25 && answer == 0) /* 4,096 where none is named */
        ind_put(device + LIMIT, WORD, 4096);
    err_made(device, before, answer);
    return answer;
}

/* Errors of a making with a limit. */
static uint32_t err_limited(uint8_t *device, uint32_t limit, uint32_t answer)
{
    int outside = limit < IND_LIMIT_LEAST || limit > IND_LIMIT_MOST;

    switch (MUTANT) {
    case 26: /* 65,537 taken */
    case 27: /* 0 taken */
        if (answer == 0)
            ind_put(device + LIMIT, WORD, limit);
        break;
    case 28: /* 102 before 101 */
        return answer == IND_REFUSED_MEMORY && outside ? IND_REFUSED_STATE
                                                       : answer;
    case 29: /* the named limit in the empty device, with 101 */
        if (answer == IND_REFUSED_MEMORY)
            ind_put(device + LIMIT, WORD, limit);
        break;
    case 30: /* the same with 102 */
        if (answer == IND_REFUSED_STATE)
            ind_put(device + LIMIT, WORD, limit);
        break;
    case 31: /* the named limit not heeded */
        if (answer == 0)
            ind_put(device + LIMIT, WORD, IND_LIMIT_DEFAULT);
        break;
    default:
        break;
    }
    return answer;
}

uint32_t fv_fresh_with(uint8_t *device, size_t device_len,
                       const uint8_t *windows, size_t windows_len,
                       uint64_t memory_len, uint32_t limit)
{
    uint8_t before[IND_IMAGE_BYTES] = {0};
    uint32_t asked = limit;

    if (device_len == sizeof before)
        memcpy(before, device, sizeof before);
    if (MUTANT == 26 && limit == IND_LIMIT_MOST + 1)
        asked = IND_LIMIT_MOST;
    if (MUTANT == 27 && limit == 0)
        asked = IND_LIMIT_LEAST;
    if (MUTANT == 32 && windows_len != IND_WINDOWS_BYTES)
        return IND_WRONG_WINDOWS; /* asked first */
    if (MUTANT == 33 && windows == NULL)
        return IND_WRONG_IMAGE; /* refused before a length is asked */
    uint32_t answer = ind_fv_fresh_with(device, device_len, windows,
                                        windows_len, memory_len, asked);
    err_made(device, before, answer);
    return err_limited(device, limit, answer);
}

/* Errors of a turn, after it. */
static void err_turned(struct turned *t)
{
    err_limit(t);
    if (t->answer == IND_SERVED) {
        err_copies(t);
        err_lanes(t);
        err_served(t);
        err_written(t);
        err_counted(t);
    } else if (t->answer < IND_WRONG_IMAGE) {
        err_unserved(t);
        err_uncounted(t);
    }
    if (t->answer < IND_WRONG_IMAGE) {
        err_edition(t);
        err_stops(t);
    }
    if (MUTANT == 10 && t->answer == IND_IDLE) /* last: those above go by the answer */
        t->answer = IND_SERVED;
}

static uint32_t turn(const struct turned *t, size_t device_len,
                     uint8_t *report, size_t report_len)
{
    return ind_fv_turn(t->device, device_len, t->memory, t->memory_len,
                       t->ring[0], t->ring_len[0], t->ring[1], t->ring_len[1],
                       t->ring[2], t->ring_len[2], t->ring[3], t->ring_len[3],
                       t->pack, t->pack_len, t->pipe, t->pipe_len, report,
                       report_len);
}

/* A report without a stop is taken, and written. */
static uint32_t turn_told_short(struct turned *t, size_t device_len)
{
    uint8_t whole[IND_REPORT_BYTES];
    uint32_t answer = turn(t, device_len, whole, sizeof whole);

    if (answer < IND_WRONG_IMAGE)
        memcpy(t->report, whole, SHORT_REPORT);
    return answer;
}

/* Empty pieces that are read or written all the same. */
static void touch_empty(const struct turned *t)
{
    if (MUTANT == 21 && t->memory_len == 0)
        (void)*(volatile uint8_t *)t->memory; /* before its length is asked */
    if (MUTANT == 22 && t->pipe != NULL && t->pipe_len == 0)
        t->pipe[0] ^= 1; /* a pointer to no bytes, taken for one to some */
}

uint32_t fv_turn(uint8_t *device, size_t device_len, uint8_t *memory,
                 size_t memory_len, const uint8_t *ring0, size_t ring0_len,
                 const uint8_t *ring1, size_t ring1_len, const uint8_t *ring2,
                 size_t ring2_len, const uint8_t *ring3, size_t ring3_len,
                 const uint8_t *pack, size_t pack_len, uint8_t *pipe,
                 size_t pipe_len, uint8_t *report, size_t report_len)
{
    const uint8_t *ring[IND_RINGS] = {ring0, ring1, ring2, ring3};
    size_t ring_len[IND_RINGS] = {ring0_len, ring1_len, ring2_len, ring3_len};
    struct turned t = {
        {0}, device, memory, pipe, report, memory_len, pipe_len, ring, pack,
        ring_len, pack_len, 0
    };

    if (MUTANT == 20 && ring3 == NULL) /* refused as too long */
        ring_len[3] = IND_RING_MOST + 1;
    touch_empty(&t);
    if (MUTANT == 18 && report_len != IND_REPORT_BYTES)
        return IND_WRONG_REPORT; /* asked first */
    if (device_len == sizeof t.before)
        memcpy(t.before, device, sizeof t.before);
    int right = device_len == sizeof t.before && report_len == IND_REPORT_BYTES;
    int misjudged = MUTANT >= 43 && MUTANT <= 48 && right;
    if (misjudged)
        misjudge(device);
    if (MUTANT == 129 && report_len == SHORT_REPORT)
        return turn_told_short(&t, device_len);
    if (right) {
        keep_memory(memory, memory_len);
        misread_edition(device);
        misjudge_waits(device, ring, ring_len);
    }
    t.answer = turn(&t, device_len, report, report_len);
    if (misjudged)
        restore_counts(&t);
    err_turned(&t);
    return t.answer;
}
