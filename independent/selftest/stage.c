/* The selftest's stage. */
#include "selftest/stage.h"

#include <inttypes.h>
#include <stdio.h>
#include <stdlib.h>
#include <string.h>

#include "device/image.h"

void check_equal(uint64_t got, uint64_t want, const char *what,
                 const char *file, int line)
{
    if (got == want)
        return;
    fprintf(stderr, "FAILED %s:%d: %s is %" PRIu64 ", not %" PRIu64 "\n", file,
            line, what, got, want);
    exit(1);
}

uint32_t r_shape(uint32_t opcode, uint32_t funct7, uint32_t funct3, uint32_t rd,
                 uint32_t rs1, uint32_t rs2)
{
    return funct7 << 25 | rs2 << 20 | rs1 << 15 | funct3 << 12 | rd << 7
         | opcode;
}

uint32_t i_shape(uint32_t opcode, uint32_t funct3, uint32_t rd, uint32_t rs1,
                 int32_t imm)
{
    return (uint32_t)imm << 20 | rs1 << 15 | funct3 << 12 | rd << 7 | opcode;
}

uint32_t s_shape(uint32_t funct3, uint32_t rs1, uint32_t rs2, int32_t imm)
{
    uint32_t bits = (uint32_t)imm;

    return r_shape(STORE, bits >> 5 & 0x7F, funct3, bits & 0x1F, rs1, rs2);
}

uint32_t b_shape(uint32_t funct3, uint32_t rs1, uint32_t rs2, int32_t imm)
{
    uint32_t bits = (uint32_t)imm;
    uint32_t high = (bits >> 12 & 1) << 6 | (bits >> 5 & 0x3F);
    uint32_t low = (bits >> 1 & 0xF) << 1 | (bits >> 11 & 1);

    return r_shape(BRANCH, high, funct3, low, rs1, rs2);
}

uint32_t run_word(struct ind_thread *thread, uint32_t word)
{
    uint8_t code[4];
    const struct ind_kernel kernel = {0, 1, code};
    const struct ind_window window = {NULL, 0, 0};
    uint32_t outside;

    put_word(code, word);
    thread->place = 0;
    return ind_step(thread, &kernel, &window, IND_LIMIT_DEFAULT, &outside);
}

static void *must(void *piece)
{
    if (piece == NULL) {
        fprintf(stderr, "FAILED: no memory for the stage\n");
        exit(1);
    }
    return piece;
}

struct stage *stage_new(uint32_t length)
{
    struct stage *stage = must(calloc(1, sizeof *stage));
    const uint32_t windows[IND_RINGS][2] = {
        {0, length}, {0, length}, {0, length}, {0, length}
    };

    stage->memory_len = length;
    stage->pack_len = IND_PACK_LEAST;
    stage->pipe_len = sizeof stage->pipe;
    memset(stage->pipe, 0xAA, sizeof stage->pipe);
    CHECK_EQ(ind_fresh(&stage->device, length, windows), 0);
    return stage;
}

struct stage *stage_copy(const struct stage *stage)
{
    struct stage *copy = must(malloc(sizeof *copy));

    *copy = *stage;
    return copy;
}

void stage_free(struct stage *stage)
{
    free(stage);
}

/* A piece of just this length, so that a byte too far is seen. */
static uint8_t *lend(const uint8_t *bytes, size_t length)
{
    uint8_t *piece = must(malloc(length + (length == 0)));

    memcpy(piece, bytes, length);
    return piece;
}

uint32_t stage_turn(struct stage *stage)
{
    uint8_t *memory = lend(stage->memory, stage->memory_len);
    uint8_t *pack = lend(stage->pack, stage->pack_len);
    uint8_t *pipe = lend(stage->pipe, stage->pipe_len);
    uint8_t *ring[IND_RINGS];
    const uint8_t *lent[IND_RINGS];

    for (int i = 0; i < IND_RINGS; i++)
        lent[i] = ring[i] = lend(stage->ring[i], stage->ring_len[i]);
    memset(&stage->report, 0xEE, sizeof stage->report);
    uint32_t status = ind_turn(&stage->device, memory, stage->memory_len, lent,
                               stage->ring_len, pack, stage->pack_len, pipe,
                               stage->pipe_len, &stage->report);
    CHECK_EQ(stage->report.status, status);
    memcpy(stage->memory, memory, stage->memory_len);
    memcpy(stage->pipe, pipe, stage->pipe_len);
    for (int i = 0; i < IND_RINGS; i++)
        free(ring[i]);
    free(pipe);
    free(pack);
    free(memory);
    return status;
}

uint32_t stage_serve(struct stage *stage)
{
    CHECK_EQ(stage_turn(stage), IND_SERVED);
    CHECK_EQ(stage->report.ring, 0);
    return stage->report.outcome;
}

void stage_keep(struct stage *kept, const struct stage *stage)
{
    kept->device = stage->device;
    memcpy(kept->memory, stage->memory, stage->memory_len);
    memcpy(kept->pipe, stage->pipe, stage->pipe_len);
}

int stage_same(const struct stage *a, const struct stage *b)
{
    return a->memory_len == b->memory_len && a->pipe_len == b->pipe_len
        && memcmp(&a->device, &b->device, sizeof a->device) == 0
        && memcmp(a->memory, b->memory, a->memory_len) == 0
        && memcmp(a->pipe, b->pipe, a->pipe_len) == 0;
}

void stage_unserved(struct stage *stage, uint32_t status)
{
    struct stage *before = stage_copy(stage);
    const struct ind_report nothing_else = {.status = status};

    CHECK_EQ(stage_turn(stage), status);
    CHECK(memcmp(&stage->report, &nothing_else, sizeof nothing_else) == 0);
    CHECK(stage_same(before, stage));
    stage_free(before);
}

uint32_t head(uint32_t opcode, uint32_t flags, uint32_t rdst, uint32_t len)
{
    return opcode | flags << 8 | rdst << 16 | len << 24;
}

uint32_t wide_high(uint32_t width, uint32_t height)
{
    return width | height << 16;
}

void push_word(struct stage *stage, uint32_t ring, uint32_t word)
{
    CHECK(stage->ring_len[ring] + 4 <= sizeof stage->ring[ring]);
    put_word(stage->ring[ring] + stage->ring_len[ring], word);
    stage->ring_len[ring] += 4;
}

void push(struct stage *stage, uint32_t ring, uint32_t first, uint32_t arg0,
          uint32_t arg1, uint32_t arg2)
{
    push_word(stage, ring, first);
    push_word(stage, ring, arg0);
    push_word(stage, ring, arg1);
    push_word(stage, ring, arg2);
}

uint32_t serve(struct stage *stage, uint32_t first, uint32_t arg0,
               uint32_t arg1, uint32_t arg2)
{
    push(stage, 0, first, arg0, arg1, arg2);
    return stage_serve(stage);
}

void serve_unchanged(struct stage *stage, uint32_t outcome, uint32_t first,
                     uint32_t arg0, uint32_t arg1, uint32_t arg2)
{
    struct stage *before = stage_copy(stage);

    CHECK_EQ(serve(stage, first, arg0, arg1, arg2), outcome);
    CHECK_EQ(stage->report.words_read, 0);
    before->device.rings[0].cursor += IND_HEADER_BYTES;
    before->device.marker = 1;
    before->device.taken[0] += 1;
    before->device.outcomes[outcome] += 1;
    memcpy(before->device.slots, stage->device.slots,
           sizeof before->device.slots);
    CHECK(stage_same(before, stage));
    stage_free(before);
}

void push_outcome(struct stage *stage, uint32_t ring, uint32_t outcome,
                  uint32_t flags)
{
    enum {
        READ = 0x02, FILL = 0x10, RUN = 0x20, NOTHING = 0x22, FB = 0x30,
        NO_OPCODE = 0xFF, EMIT = 2, PAYLOAD = 8
    };
    const uint32_t commands[IND_OUTCOMES][4] = {
        {head(NOTHING, 0, 0, 0), 0, 0, 0}, {head(NO_OPCODE, 0, 0, 0), 0, 0, 0},
        {head(NOTHING, 0x10, 0, 0), 0, 0, 0},
        {head(NOTHING, PAYLOAD, 0, 0), 0, 0, 0},
        {head(NOTHING, EMIT, IND_SLOTS, 0), 0, 0, 0},
        {head(NOTHING, EMIT, FULL_SLOT, 0), 0, 0, 0},
        {head(READ, 0, 0, 1), 2, 0, 0}, {head(FILL, 0, 0, 0), 0, 0, 0},
        {head(READ, 0, 0, 1), 64, 0, 0}, {head(FB, 0, 0, 0), 0, 0, 0},
        {head(RUN, 0, 0, 0), 0, 1, 0}, {head(RUN, 0, 0, 0), 1, 1, 0},
        {head(RUN, 0, 0, 0), 1, 1, 0}, {head(RUN, 0, 0, 0), 1, 1, 0},
        {head(RUN, 0, 0, 0), 1, 1, 0}
    };
    const uint32_t *words = commands[outcome];

    push(stage, ring, words[0] | flags << 8, words[1], words[2], words[3]);
}

/* A kernel of one word that stops with this outcome, 11 to 14. */
void pack_stop(struct stage *stage, uint32_t outcome)
{
    const uint32_t stops[] = {
        0, MEMBAR, s_shape(2, 0, 0, -4), b_shape(0, 0, 0, 0)
    };

    pack_one(stage, &stops[outcome - IND_NOT_LISTED], 1);
}

uint32_t turn_on_bytes(uint8_t *image, size_t image_len, const uint8_t *ring,
                       size_t ring_len, size_t pipe_len, uint8_t *report,
                       size_t report_len)
{
    static const uint8_t pack[IND_PACK_LEAST];
    uint8_t memory[64] = {0}, pipe[IND_PIPE_LEAST] = {0};

    return ind_fv_turn(image, image_len, memory, sizeof memory, ring, ring_len,
                       ring, ring_len, ring, ring_len, ring, ring_len, pack,
                       sizeof pack, pipe, pipe_len, report, report_len);
}

void pack_one(struct stage *stage, const uint32_t *words, uint32_t count)
{
    const uint32_t head_words[] = {1, 0, count, count};
    uint8_t *at = stage->pack;

    CHECK(sizeof head_words + 4 * (size_t)count <= sizeof stage->pack);
    for (uint32_t i = 0; i < 4; i++, at += 4)
        put_word(at, head_words[i]);
    for (uint32_t i = 0; i < count; i++, at += 4)
        put_word(at, words[i]);
    stage->pack_len = (size_t)(at - stage->pack);
}
