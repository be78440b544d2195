#include "cases/kernels/styles.h"

#include "cases/kernels/maker.h"
#include "cases/kernels/misses.h"
#include "cases/kernels/table.h"
#include "device/device.h"

static void make_careful(struct maker *m)
{
    m->bad = 3;
    emit_prologue(m);
    m->bad = 20;
    m->back = 15;
    emit_body(m, between(m->c, 3, 45));
    emit_epilogue(m);
}

static void make_near(struct maker *m)
{
    m->bad = 4;
    m->back = 4;
    if (mille(m->c, 800))
        emit_prologue(m);
    for (int32_t n = between(m->c, 1, 4); n > 0; n--) {
        emit_body(m, between(m->c, 0, 6));
        emit(m, near_word(m->c));
    }
    emit_epilogue(m);
}

static void make_wild(struct maker *m)
{
    if (mille(m->c, 500))
        emit_prologue(m);
    for (int32_t n = between(m->c, 1, 40); n > 0; n--)
        emit(m, listed_word(m->c));
}

static void make_noise(struct maker *m)
{
    if (mille(m->c, 300))
        emit_prologue(m);
    for (int32_t n = between(m->c, 1, 12); n > 0; n--)
        emit(m, mille(m->c, 500) ? any_word(m->c) : near_word(m->c));
}

/* What the last step is. */
static void emit_exact_end(struct maker *m)
{
    switch (below(m->c, 10)) {
    case 0:
        emit(m, near_word(m->c));
        break;
    case 1: /* off the end */
        break;
    case 2:
        emit(m, word_b(ROW_BEQ, 0, 0, 4));
        break;
    case 3:
        emit(m, word_s(ROW_SW, 0, 5, (int32_t)m->window - 3));
        break;
    case 4: /* the last step that may be, and its store is kept */
        emit(m, word_s(ROW_SB, 0, 5, 0));
        emit(m, table[ROW_WFI].match);
        break;
    default:
        emit(m, table[ROW_WFI].match);
        break;
    }
}

/* A loop of so many rounds, `body` steps and two more each; gives the steps of
 * all of it. */
static uint32_t emit_rounds(struct maker *m, uint32_t rounds, uint32_t body)
{
    static const int fillers[6] = {
        ROW_ADD, ROW_XORI, ROW_MEMBAR, ROW_VADD_I8, ROW_SUB, ROW_VMUL_I16
    };
    uint32_t before = m->words;

    emit_constant(m, S_COUNTER, rounds);
    uint32_t top = m->words;
    for (uint32_t i = 0; i < body; i++)
        emit_row(m, fillers[below(m->c, 6)]);
    emit(m, word_i(ROW_ADDI, S_COUNTER, S_COUNTER, -1));
    emit(m, word_b(ROW_BNE, S_COUNTER, 0, 4 * ((int32_t)top
                                               - (int32_t)m->words)));
    return top - before + rounds * (body + 2);
}

/* A stop or an end that is step `steps`, counted from 1. */
static void make_exact(struct maker *m, uint32_t steps)
{
    uint32_t body = below(m->c, 7);
    uint32_t left = steps - 1;

    if (left >= CONSTANT_WORDS_MOST + body + 2)
        left -= emit_rounds(m, (left - CONSTANT_WORDS_MOST) / (body + 2), body);
    for (; left > 0; left--)
        emit(m, word_i(ROW_ADDI, 5, 5, 1));
    emit_exact_end(m);
}

/* Forward over `n` words, some words there, and back to the second word. */
static void make_far(struct maker *m)
{
    uint32_t n = (uint32_t)between(m->c, 900, 1023);
    int32_t miss = mille(m->c, 150) ? 2 * between(m->c, -3, 3) : 0;

    emit(m, word_b(ROW_BEQ, 0, 0, 4 * (int32_t)n));
    emit(m, word_i(ROW_ADDI, 5, 5, 1));
    emit(m, word_s(ROW_SB, 0, 5, 0));
    emit(m, table[ROW_WFI].match);
    while (m->words < n)
        emit(m, mille(m->c, 100) ? near_word(m->c) : table[ROW_MEMBAR].match);
    emit(m, word_i(ROW_ADDI, 6, 6, 1));
    int32_t back = 4 * (1 - (int32_t)m->words) + miss;
    if (back < -4096)
        back = -4096;
    emit(m, word_b(mille(m->c, 500) ? ROW_BGEU : ROW_BNE, 6, 0, back));
    emit(m, table[ROW_WFI].match);
}

/* One word that is left out or just misses the list. */
static void make_miss(struct maker *m)
{
    uint32_t word = mille(m->c, 700) ? left_out_word(m->c) : near_word(m->c);

    emit(m, word);
    emit(m, table[ROW_WFI].match);
}

/* The limit's own step or the one after it; of limits that do not take long,
 * others near them too. */
static uint32_t near_limit(struct chance *c, uint32_t limit)
{
    int close = limit > IND_LIMIT_DEFAULT || mille(c, 400);
    uint32_t steps = limit
        + (uint32_t)(close ? between(c, 0, 1) : between(c, -2, 3));

    return steps == 0 || steps > limit + 3 ? 1 : steps;
}

uint32_t make_kernel(struct chance *c, enum style style, uint32_t window_length,
                     uint32_t limit, uint32_t *code)
{
    struct maker m = { .c = c, .code = code, .window = window_length };

    switch (style) {
    case STYLE_CAREFUL:
        make_careful(&m);
        break;
    case STYLE_NEAR:
        make_near(&m);
        break;
    case STYLE_WILD:
        make_wild(&m);
        break;
    case STYLE_NOISE:
        make_noise(&m);
        break;
    case STYLE_EXACT:
        make_exact(&m, near_limit(c, limit));
        break;
    case STYLE_FAR:
        make_far(&m);
        break;
    case STYLE_BRIEF:
        make_brief(&m);
        break;
    case STYLE_LATE:
        make_late(&m, limit);
        break;
    default:
        make_miss(&m);
        break;
    }
    if (m.words == 0)
        emit(&m, table[ROW_WFI].match);
    return m.words;
}
