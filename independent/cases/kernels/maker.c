#include "cases/kernels/maker.h"

#include "cases/kernels/table.h"

void emit(struct maker *m, uint32_t word)
{
    m->code[m->words++] = word;
}

uint32_t source(struct maker *m)
{
    static const uint32_t usual[16] = {
        0, 1, 2, 3, 4, 5, 6, 7, 5, 6, 7, 13, 14, 15, 16, S_NUMBER
    };

    return mille(m->c, 100) ? below(m->c, 32) : usual[below(m->c, 16)];
}

uint32_t target(struct maker *m)
{
    static const uint32_t usual[8] = { 5, 6, 7, 13, 14, 15, 16, 17 };

    if (mille(m->c, 30))
        return 0;
    return mille(m->c, 40) ? 22 + below(m->c, 10) : usual[below(m->c, 8)];
}

uint32_t vector(struct maker *m)
{
    return mille(m->c, 150) ? below(m->c, 32) : below(m->c, 6);
}

int32_t immediate(struct maker *m)
{
    static const int32_t usual[8] = { -2048, -2047, -1, 0, 1, 2, 2046, 2047 };

    switch (below(m->c, 3)) {
    case 0:
        return usual[below(m->c, 8)];
    case 1:
        return between(m->c, -64, 64);
    default:
        return between(m->c, -2048, 2047);
    }
}

uint32_t shift_amount(struct maker *m)
{
    static const uint32_t by[8] = { 0, 1, 7, 16, 31, 32, 33, 0xFFFFFFFF };

    return by[below(m->c, 8)];
}

/* Any word into a register: LUI, then ADDI if it is needed. */
void emit_constant(struct maker *m, uint32_t rd, uint32_t value)
{
    int32_t low = (int32_t)(value & 0xFFF);

    if (low >= 2048)
        low -= 4096;
    uint32_t high = (value - (uint32_t)low) >> 12;
    if (high == 0) {
        emit(m, word_i(ROW_ADDI, rd, 0, low));
        return;
    }
    emit(m, word_u(ROW_LUI, rd, high));
    if (low != 0 || mille(m->c, 200))
        emit(m, word_i(ROW_ADDI, rd, rd, low));
}
