/* Kernels in which one thread of a dispatch stops: those before it end. */
#include "cases/kernels/maker.h"
#include "cases/kernels/misses.h"
#include "cases/kernels/table.h"
#include "cases/limits.h"

enum {
    S_MINE = 5, S_OTHER = 6, /* they hold the same in the thread that stops */
    S_DATA = 7, S_ADDRESS = 10, ACCESSES = 10, PADDING_MOST = 40
};

/* Those of 16 bytes have the most ways to lie across an end. */
static const int accesses[ACCESSES] = {
    ROW_LB, ROW_LH, ROW_LW, ROW_VLD, ROW_VLD, ROW_SB, ROW_SH, ROW_SW, ROW_VST,
    ROW_VST
};

/* A few steps that change no address, so that places differ. */
static void emit_some(struct maker *m, uint32_t most)
{
    for (uint32_t n = below(m->c, most + 1); n > 0; n--)
        emit(m, mille(m->c, 500) ? table[ROW_MEMBAR].match
                                 : word_i(ROW_ADDI, S_DATA, S_DATA, 1));
}

/* The thread's number in the dispatch. */
static void emit_number(struct maker *m, uint32_t rd)
{
    emit(m, word_r(ROW_MUL, rd, 1, 3));
    emit(m, word_r(ROW_ADD, rd, rd, 2));
}

/* Chooses the thread, if there is one of that number. */
static void emit_choice(struct maker *m)
{
    uint32_t side = 1 + below(m->c, 2); /* s1 or s2: s4 or s3 holds how many */
    uint32_t group = below(m->c, 4);
    uint32_t thread = below(m->c, 4);

    switch (below(m->c, 7)) {
    case 0:
    case 1: /* the last of all */
        emit_number(m, S_MINE);
        emit(m, word_i(ROW_ADDI, S_MINE, S_MINE, 1));
        emit(m, word_r(ROW_MUL, S_OTHER, 3, 4));
        break;
    case 2: /* the first group's last, or the last group's first */
        emit(m, word_i(ROW_ADDI, S_MINE, side, 1));
        emit(m, word_r(ROW_ADD, S_OTHER, 5 - side, 0));
        break;
    case 3:
        emit_number(m, S_MINE);
        emit_constant(m, S_OTHER, 1 + thread + group);
        break;
    case 4: /* the first group's, or the first of a group */
        emit(m, word_r(ROW_ADD, S_MINE, side, 0));
        emit_constant(m, S_OTHER, 1 + thread);
        break;
    default: /* one of a group */
        emit(m, word_r(ROW_SHLI, S_MINE, 1, 8));
        emit(m, word_r(ROW_ADD, S_MINE, S_MINE, 2));
        emit_constant(m, S_OTHER, group << 8 | thread);
        break;
    }
}

/* From here so many bytes do not all lie inside. */
static uint32_t outside_for(struct maker *m, uint32_t bytes)
{
    uint32_t most = bytes - 1 < m->window ? bytes - 1 : m->window;
    uint32_t x = below(m->c, 100);

    if (x < 28 && most > 0) /* it starts inside */
        return m->window - 1 - below(m->c, most);
    if (x < 52)
        return m->window;
    if (x < 74)
        return m->window + 1 + below(m->c, 20);
    return x < 95 ? UINT32_MAX - below(m->c, 20) : edge_word(m->c);
}

static int32_t immediate_for(struct maker *m, int row)
{
    if (row == ROW_VLD || row == ROW_VST || mille(m->c, 250))
        return 0;
    return between(m->c, -2048, 2047);
}

static void emit_access_by(struct maker *m, int row, uint32_t base, int32_t imm)
{
    uint32_t rd = mille(m->c, 150) ? 0 : S_DATA;

    if (row == ROW_VST)
        emit(m, word_r(row, 0, base, 1));
    else if (row == ROW_VLD)
        emit(m, word_r(row, 1, base, 0));
    else if (table[row].shape == SHAPE_STORE)
        emit(m, word_s(row, base, 3, imm));
    else
        emit(m, word_i(row, rd, base, imm));
}

static void emit_reach(struct maker *m)
{
    int row = accesses[below(m->c, ACCESSES)];
    uint32_t address = outside_for(m, access_bytes(row));
    int32_t imm = immediate_for(m, row);

    emit_constant(m, S_ADDRESS, address - (uint32_t)imm);
    emit_access_by(m, row, S_ADDRESS, imm);
}

/* Each thread reaches a little further than the one before, often just as far
 * as an access is long. */
static void make_walk(struct maker *m)
{
    int row = accesses[below(m->c, ACCESSES)];
    uint32_t bytes = access_bytes(row);
    uint32_t address = outside_for(m, bytes);
    int32_t imm = immediate_for(m, row);
    uint32_t shift = mille(m->c, 600) ? ind_trailing_zeros(bytes)
                                      : below(m->c, 5);
    uint32_t before = 1 + below(m->c, 5); /* threads that stay inside */

    emit_number(m, S_MINE);
    emit(m, word_r(ROW_SHLI, S_MINE, S_MINE, shift));
    emit_constant(m, S_OTHER, address - (before << shift) - (uint32_t)imm);
    emit_some(m, 2);
    emit(m, word_r(ROW_ADD, S_ADDRESS, S_MINE, S_OTHER));
    emit_access_by(m, row, S_ADDRESS, imm);
    emit_some(m, 1);
    emit(m, table[ROW_WFI].match);
}

/* The offset of a branch from here to no place. */
static int32_t bad_offset(struct maker *m)
{
    static const int32_t offsets[4] = { 2, -2, -4096, 4092 };

    if (mille(m->c, 250)) /* just before the kernel */
        return -4 * ((int32_t)m->words + 1);
    return offsets[below(m->c, 4)];
}

/* By any comparison that holds. */
static void emit_bad_branch(struct maker *m)
{
    static const int rows[3] = { ROW_BEQ, ROW_BGE, ROW_BGEU };
    int row = rows[below(m->c, 3)];

    emit(m, word_b(row, 0, 0, bad_offset(m)));
}

/* At the kernel's first word a thread has nothing to go by but its group or its
 * own number, or nothing at all: s1, s2 or s0. */
static void make_first(struct maker *m)
{
    uint32_t side = below(m->c, 3);
    int row = accesses[below(m->c, ACCESSES)];
    uint32_t bytes = access_bytes(row) % VECTOR_BYTES; /* none of 16 */
    int32_t imm = between(m->c, -20, -1) - 3;

    if (bytes == 0) {
        emit(m, word_b(side == 0 ? ROW_BEQ : ROW_BNE, side, 0, bad_offset(m)));
    } else {
        uint32_t before = 1 + below(m->c, 3);
        uint32_t more = below(m->c, bytes);
        if (m->window < 2000 && mille(m->c, 800))
            imm = (int32_t)(m->window - bytes + 1)
                + (side == 0 ? (int32_t)more : -(int32_t)before);
        emit_access_by(m, row, side, imm);
    }
    emit_some(m, 1);
    emit(m, table[ROW_WFI].match);
}

static void emit_unlisted(struct maker *m)
{
    emit(m, mille(m->c, 700) ? left_out_word(m->c) : 0);
}

/* A loop that nothing ends but the limit. */
static void emit_spin(struct maker *m)
{
    uint32_t top = m->words;

    emit_some(m, 3);
    emit(m, word_b(ROW_BEQ, 0, 0, 4 * ((int32_t)top - (int32_t)m->words)));
}

/* Off the kernel's end: of no word, by the branch that leads here. A thread
 * that took `steps` before has often just spent them all there. */
static void emit_off_the_end(struct maker *m, uint32_t steps, uint32_t limit)
{
    if (steps > limit || limit - steps > PADDING_MOST || mille(m->c, 400)) {
        emit_some(m, 2);
        return;
    }
    for (; steps < limit; steps++)
        emit(m, table[ROW_MEMBAR].match);
}

/* The chosen thread's branch leads over the end of all others, and now and then
 * over words that are no instruction, to a place far on. */
static void emit_stop(struct maker *m, uint32_t limit)
{
    uint32_t steps = m->words + 1, others = below(m->c, 3);
    uint32_t none = mille(m->c, 12) ? 128 + below(m->c, 8) : 0;
    uint32_t x = below(m->c, 100);

    emit(m, word_b(ROW_BEQ, S_MINE, S_OTHER, 4 * (int32_t)(others + 2 + none)));
    for (; others > 0; others--)
        emit(m, table[ROW_MEMBAR].match);
    emit(m, table[ROW_WFI].match);
    for (; none > 0; none--)
        emit(m, 0);
    if (x >= 79 && limit > LIMIT_QUARTER && !mille(m->c, 100))
        x = 0; /* it takes too long */
    if (x < 12) {
        emit_off_the_end(m, steps, limit);
        return;
    }
    emit_some(m, 2);
    if (x < 47)
        emit_reach(m);
    else if (x < 66)
        emit_unlisted(m);
    else if (x < 79)
        emit_bad_branch(m);
    else
        emit_spin(m);
    if (mille(m->c, 500))
        emit(m, table[ROW_WFI].match);
}

void make_late(struct maker *m, uint32_t limit)
{
    if (limit <= LIMIT_QUARTER && mille(m->c, 50)) { /* the first thread, too */
        emit_spin(m);
        return;
    }
    if (mille(m->c, 120)) {
        make_first(m);
        return;
    }
    emit_some(m, 2);
    if (mille(m->c, 200)) {
        make_walk(m);
        return;
    }
    emit_choice(m);
    if (mille(m->c, 250)) { /* s1 and s2 changed: a stop does not go by them */
        emit(m, word_i(ROW_ADDI, 1, 1, between(m->c, 1, 4)));
        emit(m, word_i(ROW_ADDI, 2, 0, between(m->c, 0, 4)));
    }
    emit_stop(m, limit);
}
