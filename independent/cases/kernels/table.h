/* The instruction list (docs/DEVICE.md, Kernels) as masks: a third reading,
 * used to write words and to count them, never to run them. */
#ifndef TABLE_H
#define TABLE_H

#include <stdint.h>

enum shape {
    SHAPE_R,      /* rd, rs1, rs2 */
    SHAPE_ABS,    /* rd, rs1 */
    SHAPE_COUNT,  /* rd, rs1; rs2 is ignored */
    SHAPE_I,      /* rd, rs1, imm */
    SHAPE_SHAMT,  /* rd, rs1, 5 bits */
    SHAPE_U,      /* rd, imm */
    SHAPE_B,      /* rs1, rs2, imm */
    SHAPE_LOAD,   /* rd, rs1, imm */
    SHAPE_STORE,  /* rs1, rs2, imm */
    SHAPE_FIXED,  /* nothing */
    SHAPE_V,      /* vd, v1, v2 */
    SHAPE_VBCAST, /* vd, rs1 */
    SHAPE_VEXTR,  /* rd, v1 */
    SHAPE_VLD,    /* vd, rs1 */
    SHAPE_VST     /* rs1, v2 */
};

struct row {
    const char *name;
    enum shape shape;
    uint32_t mask, match;
};

enum {
    ROW_ADD, ROW_ABS, ROW_SHL, ROW_MIN, ROW_MAX, ROW_XOR, ROW_LSR, ROW_OR,
    ROW_AND, ROW_SUB, ROW_ASR, ROW_MUL, ROW_CLZ, ROW_CTZ,
    ROW_ADDI, ROW_XORI, ROW_ORI, ROW_ANDI, ROW_SHLI, ROW_LSRI, ROW_ASRI,
    ROW_LUI,
    ROW_BEQ, ROW_BNE, ROW_BLT, ROW_BGE, ROW_BLTU, ROW_BGEU,
    ROW_LB, ROW_LH, ROW_LW, ROW_SB, ROW_SH, ROW_SW,
    ROW_MEMBAR, ROW_WFI,
    ROW_VADD_I32, ROW_VADD_I16, ROW_VADD_I8,
    ROW_VSUB_I32, ROW_VSUB_I16, ROW_VSUB_I8,
    ROW_VXOR_I32, ROW_VXOR_I16, ROW_VXOR_I8,
    ROW_VAND_I32, ROW_VAND_I16, ROW_VAND_I8,
    ROW_VOR_I32, ROW_VOR_I16, ROW_VOR_I8,
    ROW_VMUL_I32, ROW_VMUL_I16, ROW_VMUL_I8,
    ROW_VBCAST, ROW_VEXTR, ROW_VLD, ROW_VST,
    ROWS
};

extern const struct row table[ROWS];

/* The row of a word, or -1. */
int row_of(uint32_t word);

/* ---- words ---- */

uint32_t word_r(int row, uint32_t rd, uint32_t rs1, uint32_t rs2);
uint32_t word_i(int row, uint32_t rd, uint32_t rs1, int32_t imm);
uint32_t word_s(int row, uint32_t rs1, uint32_t rs2, int32_t imm);
uint32_t word_b(int row, uint32_t rs1, uint32_t rs2, int32_t offset);
uint32_t word_u(int row, uint32_t rd, uint32_t high);

#endif
