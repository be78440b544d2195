#include "cases/kernels/maker.h"
#include "cases/kernels/table.h"

uint32_t place_for(struct maker *m, uint32_t bytes)
{
    uint32_t last = m->window - bytes;

    if (m->window < bytes || mille(m->c, m->bad)) {
        switch (below(m->c, 6)) {
        case 0:
            return 0 - (uint32_t)between(m->c, 1, 20);
        case 1:
            return edge_word(m->c);
        case 2:
        case 3:
            return last + (uint32_t)between(m->c, 1, 4);
        default:
            return last + (uint32_t)between(m->c, 1, (int32_t)bytes + 2);
        }
    }
    if (mille(m->c, 150))
        return last;
    return mille(m->c, 100) ? 0 : below(m->c, last + 1);
}

static int fits_immediate(int32_t x)
{
    return x >= -2048 && x <= 2047;
}

/* A base register and an immediate that together make a place. */
static uint32_t base_for(struct maker *m, uint32_t place, int32_t *imm)
{
    uint32_t base = 0;

    if (mille(m->c, 600))
        base = (uint32_t)between(m->c, A_FIRST, A_LAST);
    *imm = (int32_t)(place - (base == 0 ? 0 : m->address[base]));
    if (fits_immediate(*imm))
        return base;
    *imm = (int32_t)place;
    if (fits_immediate(*imm))
        return 0;
    base = (uint32_t)between(m->c, A_FIRST, A_LAST);
    emit_constant(m, base, place);
    m->address[base] = place;
    *imm = 0;
    return base;
}

uint32_t access_bytes(int row)
{
    switch (row) {
    case ROW_LB:
    case ROW_SB:
        return 1;
    case ROW_LH:
    case ROW_SH:
        return 2;
    case ROW_LW:
    case ROW_SW:
        return WORD;
    default:
        return VECTOR_BYTES;
    }
}

static int too_small(struct maker *m, int row)
{
    return m->window < access_bytes(row) && !mille(m->c, m->bad);
}

static void emit_access(struct maker *m, int row)
{
    int32_t imm;

    if (too_small(m, row))
        return;
    uint32_t base = base_for(m, place_for(m, access_bytes(row)), &imm);
    if (table[row].shape == SHAPE_LOAD)
        emit(m, word_i(row, target(m), base, imm));
    else
        emit(m, word_s(row, base, source(m), imm));
}

static void emit_vector_access(struct maker *m, int row)
{
    int32_t imm;

    if (too_small(m, row))
        return;
    uint32_t place = place_for(m, VECTOR_BYTES);
    uint32_t base = base_for(m, place, &imm);
    if (imm != 0) {
        uint32_t own = (uint32_t)between(m->c, A_FIRST, A_LAST);
        emit(m, word_i(ROW_ADDI, own, base, imm));
        m->address[own] = place;
        base = own;
    }
    if (row == ROW_VLD)
        emit(m, word_r(row, vector(m), base, 0));
    else
        emit(m, word_r(row, 0, base, vector(m)));
}

/* A branch's offset, when the words up to it and four after it are inside. */
static int32_t offset_for(struct maker *m)
{
    int32_t here = 4 * (int32_t)m->words;

    if (mille(m->c, m->bad)) {
        switch (below(m->c, 4)) {
        case 0:
            return 4 * between(m->c, -1, 3) + 2;
        case 1:
            return -here - 2 * between(m->c, 1, 8);
        case 2:
            return 2 * between(m->c, -2048, 2047);
        default:
            return 4 * between(m->c, 10, 60);
        }
    }
    if (mille(m->c, m->back))
        return -4 * between(m->c, 0, (int32_t)m->words < 6
                            ? (int32_t)m->words : 6);
    return 4 * between(m->c, 1, 4);
}

/* Shifts by a register find 0, 31, 32 and more there often enough. */
static void emit_shift(struct maker *m, int row)
{
    uint32_t amount = source(m);

    if (mille(m->c, 500)) {
        amount = 7;
        emit_constant(m, amount, shift_amount(m));
    }
    if (row == ROW_SHL && amount == 0)
        amount = 5;
    uint32_t rd = target(m);
    emit(m, word_r(row, rd, source(m), amount));
}

/* An instruction on scalar registers alone. Each number is drawn in a statement
 * of its own: the order of a call's arguments is the compiler's. */
static void emit_scalar(struct maker *m, int row)
{
    uint32_t rd = target(m), a = source(m), b = source(m);

    switch (table[row].shape) {
    case SHAPE_R:
        emit(m, word_r(row, rd, a, b));
        break;
    case SHAPE_ABS:
        if (mille(m->c, 200)) { /* of the least number */
            a = 6;
            emit(m, word_u(ROW_LUI, a, 0x80000));
        }
        emit(m, word_r(row, rd, a, 0));
        break;
    case SHAPE_COUNT:
        emit(m, word_r(row, rd, a, below(m->c, 32)));
        break;
    case SHAPE_I:
        emit(m, word_i(row, rd, a, immediate(m)));
        break;
    case SHAPE_SHAMT:
        emit(m, word_r(row, rd, a, mille(m->c, 300) ? 31 * below(m->c, 2)
                                                    : below(m->c, 32)));
        break;
    case SHAPE_B:
        if (mille(m->c, 200))
            b = a;
        emit(m, word_b(row, a, b, offset_for(m)));
        break;
    default: /* SHAPE_U */
        emit(m, word_u(row, rd, any_word(m->c)));
        break;
    }
}

/* An instruction on vector registers and no memory. */
static void emit_vector(struct maker *m, int row)
{
    uint32_t vd = vector(m), v1 = vector(m), v2 = vector(m);

    switch (table[row].shape) {
    case SHAPE_VBCAST:
        emit(m, word_r(row, vd, source(m), 0));
        break;
    case SHAPE_VEXTR:
        emit(m, word_r(row, target(m), v1, 0));
        break;
    default: /* SHAPE_V */
        emit(m, word_r(row, vd, v1, v2));
        break;
    }
}

void emit_row(struct maker *m, int row)
{
    switch (table[row].shape) {
    case SHAPE_LOAD:
    case SHAPE_STORE:
        emit_access(m, row);
        break;
    case SHAPE_VLD:
    case SHAPE_VST:
        emit_vector_access(m, row);
        break;
    case SHAPE_FIXED:
        if (row != ROW_WFI || mille(m->c, 150))
            emit(m, table[row].match);
        break;
    case SHAPE_V:
    case SHAPE_VBCAST:
    case SHAPE_VEXTR:
        emit_vector(m, row);
        break;
    default:
        if (row == ROW_SHL || row == ROW_LSR || row == ROW_ASR)
            emit_shift(m, row);
        else
            emit_scalar(m, row);
        break;
    }
}

int row_without_branch(struct chance *c)
{
    int row;

    do
        row = (int)below(c, ROWS);
    while (table[row].shape == SHAPE_B || row == ROW_WFI);
    return row;
}
