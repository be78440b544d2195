/* The replay job: sections in, a line for each turn out. */
#include "job.h"

#include <inttypes.h>
#include <string.h>

#include "parts.h"

enum {
    SOUND = -1, /* not a number that `refused` prints */
    TOO_LONG = 0,
    SECTION_WINDOWS = 1,
    SECTION_RINGS = 2, /* and 3, 4, 5 */
    SECTION_KERNELS = 6,
    SECTION_CODE = 7,
    SECTION_MEMORY = 8,
    LEFT_OVER = 9
};

struct reader {
    const uint8_t *bytes;
    size_t length, at;
};

struct job {
    uint32_t windows[IND_RINGS][2];
    const uint8_t *ring[IND_RINGS], *pack, *memory;
    size_t ring_len[IND_RINGS], pack_len, memory_len;
};

/* So many bytes from the front, or NULL if they are not there. */
static const uint8_t *take(struct reader *reader, size_t bytes)
{
    if (reader->length - reader->at < bytes)
        return NULL;
    reader->at += bytes;
    return reader->bytes + (reader->at - bytes);
}

/* 1 and the number, or 0 if it is not there. */
static int take_number(struct reader *reader, uint32_t *number)
{
    const uint8_t *bytes = take(reader, WORD);

    if (bytes == NULL)
        return 0;
    *number = ind_get(bytes, WORD);
    return 1;
}

static int read_windows(struct reader *reader, struct job *job)
{
    uint32_t count;

    if (!take_number(reader, &count) || count != IND_RINGS)
        return SECTION_WINDOWS;
    for (uint32_t i = 0; i < IND_RINGS; i++) {
        if (!take_number(reader, &job->windows[i][0])
            || !take_number(reader, &job->windows[i][1]))
            return SECTION_WINDOWS;
    }
    return SOUND;
}

static int read_rings(struct reader *reader, struct job *job)
{
    for (int i = 0; i < IND_RINGS; i++) {
        uint32_t count;
        if (!take_number(reader, &count))
            return SECTION_RINGS + i;
        job->ring[i] = take(reader, count);
        job->ring_len[i] = count;
        if (job->ring[i] == NULL)
            return SECTION_RINGS + i;
    }
    return SOUND;
}

/* Sections 6 and 7, one after the other, are a pack. */
static int read_pack(struct reader *reader, struct job *job)
{
    job->pack = reader->bytes + reader->at;
    switch (ind_pack_scan(job->pack, reader->length - reader->at,
                          &job->pack_len)) {
    case IND_PACK_SOUND:
        reader->at += job->pack_len;
        return SOUND;
    case IND_PACK_KERNELS:
        return SECTION_KERNELS;
    default:
        return SECTION_CODE;
    }
}

static int read_memory(struct reader *reader, struct job *job)
{
    uint32_t count;

    if (!take_number(reader, &count) || count > IND_JOB_WORDS_MOST)
        return SECTION_MEMORY;
    job->memory_len = (size_t)WORD * count;
    job->memory = take(reader, job->memory_len);
    return job->memory == NULL ? SECTION_MEMORY : SOUND;
}

/* SOUND, or the number of the first section at fault. */
static int read_job(struct reader *reader, struct job *job)
{
    int fault = read_windows(reader, job);

    if (fault == SOUND)
        fault = read_rings(reader, job);
    if (fault == SOUND)
        fault = read_pack(reader, job);
    if (fault == SOUND)
        fault = read_memory(reader, job);
    if (fault == SOUND && reader->at != reader->length)
        fault = LEFT_OVER;
    return fault;
}

static void refused(FILE *out, uint32_t number)
{
    fprintf(out, "refused %" PRIu32 "\n", number);
}

/* Turns until idle, or until a call is refused. */
static void run_job(const struct job *job, FILE *out)
{
    uint8_t memory[WORD * IND_JOB_WORDS_MOST], pipe[IND_PIPE_LEAST] = {0};
    struct ind_device device;
    struct ind_report report;
    uint32_t turns = 0;
    uint32_t status = ind_fresh(&device, job->memory_len, job->windows);

    memcpy(memory, job->memory, job->memory_len);
    while (status == IND_SERVED) {
        status = ind_turn(&device, memory, job->memory_len, job->ring,
                          job->ring_len, job->pack, job->pack_len, pipe,
                          sizeof pipe, &report);
        if (status == IND_SERVED) {
            turns++;
            fprintf(out, "%" PRIu32 " %" PRIu32 " %" PRIu32 " %" PRIu32
                    " %" PRIu32 "\n", turns, report.ring, report.outcome,
                    report.fence, report.words_read);
        }
    }
    if (status == IND_IDLE)
        fprintf(out, "idle %" PRIu32 "\n", turns);
    else
        refused(out, status);
}

int ind_replay_bytes(const uint8_t *input, size_t length, FILE *out)
{
    struct reader reader = {input, length, 0};
    struct job job;
    int fault = length > IND_INPUT_MOST ? TOO_LONG : read_job(&reader, &job);

    if (fault == SOUND)
        run_job(&job, out);
    else
        refused(out, (uint32_t)fault);
    return fflush(out) != 0 || ferror(out) != 0;
}

int ind_replay(FILE *in, FILE *out)
{
    uint8_t input[IND_INPUT_MOST + 1]; /* one more, to see that there is more */
    size_t length = fread(input, 1, sizeof input, in);

    return ferror(in) ? 1 : ind_replay_bytes(input, length, out);
}
