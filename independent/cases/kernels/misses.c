#include "cases/kernels/misses.h"

#include "cases/kernels/table.h"

/* A row and the bits of it whose change makes a word that is not listed, or is
 * another row's. */
struct miss {
    int row;
    uint32_t bits;
};

enum {
    BITS_RD = 0x00000F80, BITS_F3 = 0x00007000, BITS_RS2 = 0x01F00000,
    BITS_25 = 0x02000000
};
#define BITS_F7 0xFE000000u
#define BITS_F6 0xFC000000u
#define BITS_FIELDS 0xFFFF8F80u /* all but funct3 and opcode */

static const struct miss misses[] = {
    { ROW_ADD, BITS_F7 }, { ROW_SUB, BITS_F3 }, { ROW_SUB, BITS_F7 },
    { ROW_MUL, BITS_F3 }, { ROW_CLZ, BITS_F3 }, { ROW_CTZ, BITS_F7 },
    { ROW_ADDI, BITS_F3 }, { ROW_SHLI, BITS_F7 }, { ROW_LSRI, BITS_F7 },
    { ROW_ASRI, BITS_F7 }, { ROW_BEQ, BITS_F3 }, { ROW_BGEU, BITS_F3 },
    { ROW_LB, BITS_F3 }, { ROW_SB, BITS_F3 }, { ROW_MEMBAR, BITS_F3 },
    { ROW_MEMBAR, BITS_FIELDS }, { ROW_WFI, BITS_FIELDS },
    { ROW_VADD_I8, BITS_25 }, { ROW_VMUL_I16, BITS_25 },
    { ROW_VSUB_I32, BITS_F3 }, { ROW_VXOR_I16, BITS_F6 },
    { ROW_VBCAST, BITS_RS2 }, { ROW_VBCAST, BITS_F7 }, { ROW_VBCAST, BITS_F3 },
    { ROW_VEXTR, BITS_RS2 }, { ROW_VEXTR, BITS_F7 },
    { ROW_VLD, BITS_RS2 }, { ROW_VLD, BITS_F7 }, { ROW_VLD, BITS_F3 },
    { ROW_VST, BITS_RD }, { ROW_VST, BITS_F7 }, { ROW_VST, BITS_F3 }
};

enum { MISSES = sizeof misses / sizeof misses[0] };

static uint32_t word_of_row(struct chance *c, int row)
{
    return (any_word(c) & ~table[row].mask) | table[row].match;
}

uint32_t listed_word(struct chance *c)
{
    return word_of_row(c, (int)below(c, ROWS));
}

uint32_t near_word(struct chance *c)
{
    const struct miss *miss = &misses[below(c, MISSES)];
    uint32_t word = word_of_row(c, miss->row), change;

    switch (below(c, 10)) {
    case 0: /* another opcode */
        change = 1u << below(c, 7);
        return listed_word(c) ^ change;
    case 1: /* one bit that the row fixes */
        do
            change = 1u << below(c, 32);
        while ((table[miss->row].mask & change) == 0);
        return word ^ change;
    case 2: /* a row's opcode, the rest any */
        return (any_word(c) & ~0x7Fu) | (word & 0x7F);
    default:
        do
            change = mille(c, 500) ? 1u << below(c, 32) : any_word(c);
        while ((change & miss->bits) == 0);
        return word ^ (change & miss->bits);
    }
}

/* What tinyGPU has and the list of docs/DEVICE.md, Kernels, leaves out, and
 * words of the RISC-V manual: a row's opcode or another, funct3, funct7. */
static const struct {
    uint8_t opcode, funct3, funct7;
} left_out[] = {
    { 0x0B, 0, 2 }, { 0x0B, 1, 2 }, { 0x0B, 2, 2 }, /* CMP */
    { 0x0B, 1, 1 }, { 0x0B, 2, 1 }, { 0x0B, 4, 1 }, /* MULH and the like */
    { 0x0B, 0, 8 }, { 0x0B, 1, 8 }, { 0x0B, 3, 8 }, { 0x0B, 6, 8 },
    { 0x0B, 0, 9 }, { 0x0B, 1, 9 }, { 0x0B, 2, 3 }, { 0x0B, 1, 32 },
    { 0x17, 2, 0 }, { 0x17, 3, 0 }, { 0x17, 1, 32 }, { 0x17, 5, 1 },
    { 0x17, 5, 33 }, { 0x0E, 2, 0 }, { 0x0E, 3, 0 }, /* JALR, JAL */
    { 0x0C, 3, 0 }, { 0x0C, 4, 0 }, { 0x0C, 5, 0 }, { 0x0C, 6, 0 },
    { 0x0D, 3, 0 }, { 0x0D, 4, 0 }, { 0x0D, 7, 0 },
    { 0x0F, 1, 0 }, { 0x0F, 2, 0 }, { 0x0F, 3, 0 }, { 0x0F, 0, 1 },
    { 0x2F, 0, 1 }, { 0x2F, 2, 25 }, /* bit 25, VADD and VMUL */
    { 0x2F, 3, 0 }, { 0x2F, 4, 24 }, { 0x2F, 5, 2 }, { 0x2F, 0, 4 },
    { 0x2F, 0, 6 }, { 0x2F, 2, 8 }, { 0x2F, 0, 10 }, { 0x2F, 0, 12 },
    { 0x2F, 1, 14 }, { 0x2F, 0, 16 }, { 0x2F, 3, 26 }, { 0x2F, 3, 28 },
    { 0x2F, 0, 30 }, { 0x10, 1, 0 }, { 0x10, 3, 0 }, { 0x11, 1, 0 },
    { 0x11, 2, 0 }, { 0x11, 3, 0 }, { 0x12, 1, 0 }, { 0x12, 2, 0 },
    { 0x13, 0, 0 }, { 0x14, 0, 0 }, { 0x14, 2, 0 }, { 0x15, 0, 0 },
    { 0x33, 0, 0 }, { 0x03, 2, 0 }, { 0x23, 2, 0 }, { 0x63, 0, 0 },
    { 0x6F, 0, 0 }, { 0x67, 0, 0 }, { 0x73, 0, 0 }, { 0x00, 0, 0 },
    { 0x7F, 7, 127 }
};

uint32_t left_out_word(struct chance *c)
{
    uint32_t i = below(c, sizeof left_out / sizeof left_out[0]);
    uint32_t fields = mille(c, 500) ? 0 : any_word(c) & 0x01FF8F80u;

    return (uint32_t)left_out[i].funct7 << 25
        | (uint32_t)left_out[i].funct3 << 12 | fields | left_out[i].opcode;
}
