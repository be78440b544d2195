#include "cases/kernels/maker.h"
#include "cases/kernels/misses.h"
#include "cases/kernels/table.h"

/* Bytes of a lane whose sum or difference may carry; 0 for any other row. */
static uint32_t lane_bytes(int row)
{
    if (row == ROW_VADD_I8 || row == ROW_VSUB_I8)
        return 1;
    return row == ROW_VADD_I16 || row == ROW_VSUB_I16 ? 2 : 0;
}

/* A number that this instruction has an edge at, as its operand 0 or 1. */
static uint32_t operand_for(struct maker *m, int row, uint32_t which)
{
    static const uint32_t low[4] = {
        0x80000000, 0x80000001, 0xFFFFFFFF, 0xFFFF0000
    };

    if (row == ROW_ABS && mille(m->c, 600))
        return low[below(m->c, 4)];
    if (table[row].shape == SHAPE_COUNT && mille(m->c, 350))
        return 0;
    if ((row == ROW_SHL || row == ROW_LSR || row == ROW_ASR) && which == 1
        && mille(m->c, 700))
        return shift_amount(m);
    if (lane_bytes(row) != 0 && mille(m->c, 800))
        return edge_lanes(m->c, lane_bytes(row));
    return edge_word(m->c);
}

/* Where a vector comes from. Lanes that may carry come from the window's front,
 * as few bytes behind it are not 0. */
static uint32_t vector_place(struct maker *m, int row)
{
    enum { FRONT = 9 }; /* places, from 0 on */
    uint32_t places = m->window - VECTOR_BYTES + 1;

    return below(m->c, lane_bytes(row) != 0 && places > FRONT ? FRONT : places);
}

/* s5 or s6 (or v5 or v6) from the window, or a number. */
static void emit_operand(struct maker *m, int row, uint32_t r, int is_vector)
{
    if (is_vector && m->window >= VECTOR_BYTES && mille(m->c, 500)) {
        emit_constant(m, 10, vector_place(m, row));
        emit(m, word_r(ROW_VLD, r, 10, 0));
        return;
    }
    if (m->window >= WORD && m->window < 2048 && mille(m->c, 250))
        emit(m, word_i(ROW_LW, r, 0,
                       (int32_t)below(m->c, m->window - WORD + 1)));
    else
        emit_constant(m, r, operand_for(m, row, r - 5));
    if (is_vector)
        emit(m, word_r(ROW_VBCAST, r, r, 0));
}

static int takes_two(enum shape shape)
{
    return shape == SHAPE_R || shape == SHAPE_B || shape == SHAPE_V;
}

/* The row with s7 or v7 as its result and s5, s6, v5, v6 as operands. */
static uint32_t observed_word(struct maker *m, int row)
{
    uint32_t rs1 = mille(m->c, 50) ? 0 : 5;

    switch (table[row].shape) {
    case SHAPE_ABS:
    case SHAPE_VEXTR:
        return word_r(row, 7, rs1, 0);
    case SHAPE_COUNT:
        return word_r(row, 7, rs1, below(m->c, 32));
    case SHAPE_I:
        return word_i(row, 7, rs1, immediate(m));
    case SHAPE_SHAMT:
        return word_r(row, 7, rs1, mille(m->c, 300) ? 31 * below(m->c, 2)
                                                    : below(m->c, 32));
    case SHAPE_B: /* over one instruction */
        return word_b(row, rs1, mille(m->c, 300) ? 5 : 6, 8);
    case SHAPE_U:
        return word_u(row, 7, any_word(m->c));
    case SHAPE_VBCAST:
        return word_r(row, 7, 5, 0);
    default:
        return word_r(row, 7, rs1, 6);
    }
}

/* A scalar or a vector to any place that holds it; a window too small for it
 * is left alone. */
static void emit_result(struct maker *m, uint32_t r, int is_vector)
{
    uint32_t bytes = is_vector ? VECTOR_BYTES : WORD;

    if (m->window < bytes)
        return;
    uint32_t place = below(m->c, m->window - bytes + 1);
    if (!is_vector && place < 2048) {
        emit(m, word_s(ROW_SW, 0, r, (int32_t)place));
        return;
    }
    emit_constant(m, 11, place);
    emit(m, is_vector ? word_r(ROW_VST, 0, 11, r) : word_s(ROW_SW, 11, r, 0));
}

/* Operands, the instruction, and its result to the window. */
static void emit_observed(struct maker *m, int row)
{
    enum shape shape = table[row].shape;
    int vector_result = shape == SHAPE_V || shape == SHAPE_VBCAST;

    emit_operand(m, row, 5, shape == SHAPE_V || shape == SHAPE_VEXTR);
    if (takes_two(shape))
        emit_operand(m, row, 6, shape == SHAPE_V);
    emit(m, observed_word(m, row));
    if (shape == SHAPE_B)
        emit(m, word_i(ROW_ADDI, 7, 7, 1));
    if (lane_bytes(row) != 0 && mille(m->c, 150)) { /* its first word alone */
        emit(m, word_r(ROW_VEXTR, 7, 7, 0));
        vector_result = 0;
    }
    emit_result(m, 7, vector_result);
}

/* A load, a store, or both of a vector, near the window's ends now and then. */
static void emit_observed_access(struct maker *m, int row)
{
    uint32_t rd = mille(m->c, 250) ? 0 : 7;
    int32_t shift = mille(m->c, 500) ? 0 : between(m->c, -2048, 2047);

    if (m->bad == 0 && m->window < access_bytes(row))
        return;
    if (rd == 0 && mille(m->c, 500)) /* s0 is no reason not to ask */
        m->bad = 1000;
    uint32_t place = place_for(m, access_bytes(row));
    emit_operand(m, row, 5, row == ROW_VST);
    if (row == ROW_VLD || row == ROW_VST)
        shift = 0;
    emit_constant(m, 10, place - (uint32_t)shift);
    if (table[row].shape == SHAPE_STORE) {
        emit(m, word_s(row, 10, 5, shift));
    } else if (row == ROW_VST) {
        emit(m, word_r(row, 0, 10, 5));
    } else {
        emit(m, row == ROW_VLD ? word_r(row, rd, 10, 0)
                               : word_i(row, rd, 10, shift));
        emit_result(m, rd, row == ROW_VLD);
    }
}

/* A few instructions looked at closely, for where bytes are dear, and now and
 * then a word that just misses the list. */
void make_brief(struct maker *m)
{
    static const int lane_rows[4] = {
        ROW_VADD_I8, ROW_VSUB_I8, ROW_VADD_I16, ROW_VSUB_I16
    };

    for (int32_t n = between(m->c, 3, 10); n > 0; n--) {
        int row = row_without_branch(m->c);
        m->bad = n == 1 ? 400 : 0; /* what stops comes last */
        if (mille(m->c, 130))
            row = ROW_BEQ + (int)below(m->c, 6);
        else if (mille(m->c, 190))
            row = lane_rows[below(m->c, 4)];
        if (row == ROW_MEMBAR)
            emit(m, table[row].match);
        else if ((row >= ROW_LB && row <= ROW_SW) || row == ROW_VLD
                 || row == ROW_VST)
            emit_observed_access(m, row);
        else
            emit_observed(m, row);
    }
    if (mille(m->c, 100))
        emit(m, left_out_word(m->c));
    else if (mille(m->c, 100))
        emit(m, near_word(m->c));
    else if (mille(m->c, 60)) /* to a place that is no multiple of 4 */
        emit(m, word_b(ROW_BEQ, 0, 0, 2));
    emit(m, table[ROW_WFI].match);
}
