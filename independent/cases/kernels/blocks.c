#include "cases/kernels/maker.h"
#include "cases/kernels/misses.h"
#include "cases/kernels/table.h"

static uint32_t start_address(struct maker *m)
{
    switch (below(m->c, 6)) {
    case 0:
        return m->window - (uint32_t)between(m->c, 0, 20);
    case 1:
        return 0 - (uint32_t)between(m->c, 0, 40);
    case 2:
        return 0;
    case 3:
        return edge_word(m->c);
    default:
        return below(m->c, m->window + 1);
    }
}

void emit_prologue(struct maker *m)
{
    static const uint32_t values[7] = { 5, 6, 7, 13, 14, 15, 16 };

    for (uint32_t a = A_FIRST; a <= A_LAST; a++) {
        m->address[a] = start_address(m);
        emit_constant(m, a, m->address[a]);
    }
    for (uint32_t i = 0; i < 7; i++) {
        if (mille(m->c, 500) && m->window >= WORD)
            emit(m, word_i(ROW_LW, values[i], 0,
                           (int32_t)below(m->c, m->window - WORD + 1)));
        else
            emit_constant(m, values[i], edge_word(m->c));
    }
    for (uint32_t v = 0; v < 5; v++)
        emit_row(m, mille(m->c, 700) && m->window >= VECTOR_BYTES ? ROW_VLD
                                                                  : ROW_VBCAST);
    if (mille(m->c, 500)) {
        emit(m, word_r(ROW_MUL, S_NUMBER, 1, 3));
        emit(m, word_r(ROW_ADD, S_NUMBER, S_NUMBER, 2));
    }
}

/* A store to a word of the thread's own. */
static void emit_own_store(struct maker *m)
{
    if (m->window < 128)
        return;
    emit(m, word_r(ROW_SHLI, 18, S_NUMBER, 2));
    emit(m, word_s(ROW_SW, 18, source(m), 0));
}

/* A loop that ends by its counter. */
static void emit_loop(struct maker *m)
{
    emit(m, word_i(ROW_ADDI, S_COUNTER, 0, between(m->c, 1, 12)));
    int32_t top = (int32_t)m->words;
    for (int32_t n = between(m->c, 1, 5); n > 0; n--)
        emit_row(m, row_without_branch(m->c));
    emit(m, word_i(ROW_ADDI, S_COUNTER, S_COUNTER, -1));
    int32_t back = 4 * (top - (int32_t)m->words);
    switch (below(m->c, 4)) {
    case 0:
        emit(m, word_b(ROW_BLT, 0, S_COUNTER, back));
        break;
    case 1:
        emit(m, word_b(ROW_BLTU, 0, S_COUNTER, back));
        break;
    case 2:
        emit(m, word_b(ROW_BGE, S_COUNTER, 3, back));
        break;
    default:
        emit(m, word_b(ROW_BNE, S_COUNTER, 0, back));
        break;
    }
}

/* A word that stops, but only a thread or a group of some number. */
static void emit_late_stop(struct maker *m)
{
    static const int rows[4] = { ROW_BNE, ROW_BLT, ROW_BLTU, ROW_BEQ };

    emit_constant(m, 19, below(m->c, 5));
    int row = rows[below(m->c, 4)];
    emit(m, word_b(row, 1 + below(m->c, 2), 19, 8));
    switch (below(m->c, 4)) {
    case 0:
        emit(m, near_word(m->c));
        break;
    case 1:
        emit(m, word_s(ROW_SW, 0, 5, -4));
        break;
    case 2:
        emit(m, word_b(ROW_BEQ, 0, 0, 0));
        break;
    default:
        emit(m, word_b(ROW_BEQ, 0, 0, -4096));
        break;
    }
}

void emit_body(struct maker *m, int32_t parts)
{
    for (; parts > 0; parts--) {
        switch (below(m->c, 24)) {
        case 0:
            emit_loop(m);
            break;
        case 1:
            emit_own_store(m);
            break;
        case 2:
            if (mille(m->c, 250))
                emit_late_stop(m);
            break;
        default:
            emit_row(m, (int)below(m->c, ROWS));
            break;
        }
    }
}

void emit_epilogue(struct maker *m)
{
    m->bad = 4;
    for (uint32_t i = 0; i < 4; i++)
        emit_row(m, mille(m->c, 600) ? ROW_SW : ROW_VST);
    emit_own_store(m);
    while (m->words % 4 != 0 || mille(m->c, 300))
        emit(m, table[ROW_MEMBAR].match);
    switch (below(m->c, 30)) {
    case 0: /* runs off its end */
        break;
    case 1: /* a branch to the very end */
        emit(m, word_b(ROW_BEQ, 0, 0, 8));
        emit(m, table[ROW_WFI].match);
        break;
    case 2: /* branches that are not taken, to places that are none */
        emit(m, word_b(ROW_BNE, 4, 4, 2));
        emit(m, word_b(ROW_BLTU, 3, 3, -4096));
        emit(m, table[ROW_WFI].match);
        break;
    default:
        emit(m, table[ROW_WFI].match);
        break;
    }
}
