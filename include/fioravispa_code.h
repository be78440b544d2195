/* Instruction words for kernels, to be put together in C: an instruction's fixed
 * bits, and a function for each shape that adds the fields.
 *
 *     fv_r(FV_ADD, 5, 1, 2)         ADD s5, s1, s2
 *     fv_i(FV_ADDI, 5, 0, -1)       ADDI s5, s0, -1
 *     fv_b(FV_BNE, 5, 0, -8)        BNE s5, s0 to two words before this one
 *
 * A thread starts with s1 group, s2 thread in the group, s3 threads in a group,
 * s4 groups, all other registers 0; s0 always reads 0. FV_WFI ends it.
 *
 * Nothing is checked here: a register is 0 to 31, 12 bits hold -2,048 to 2,047. */
#ifndef FIORAVISPA_CODE_H
#define FIORAVISPA_CODE_H

#include <stdint.h>

#define FV_BITS(opcode, funct3, funct7) ((uint32_t)(opcode) | (uint32_t)(funct3) << 12 | (uint32_t)(funct7) << 25)

/* ---- rd, rs1, rs2 ---- */

#define FV_ADD FV_BITS(0x0B, 0, 0)
#define FV_SHL FV_BITS(0x0B, 1, 0)  /* with rs2 0 the word is ABS */
#define FV_ABS FV_BITS(0x0B, 1, 0)  /* rs2 0 */
#define FV_MIN FV_BITS(0x0B, 2, 0)
#define FV_MAX FV_BITS(0x0B, 3, 0)
#define FV_XOR FV_BITS(0x0B, 4, 0)
#define FV_LSR FV_BITS(0x0B, 5, 0)
#define FV_OR FV_BITS(0x0B, 6, 0)
#define FV_AND FV_BITS(0x0B, 7, 0)
#define FV_SUB FV_BITS(0x0B, 0, 32)
#define FV_ASR FV_BITS(0x0B, 5, 32)
#define FV_MUL FV_BITS(0x0B, 0, 1)
#define FV_CLZ FV_BITS(0x0B, 0, 3)  /* rs2 is ignored */
#define FV_CTZ FV_BITS(0x0B, 1, 3)

/* Vectors: the lane's width is in bits 12 to 14. */
enum { FV_I32 = 0, FV_I16 = 1, FV_I8 = 2 };
#define FV_VADD(lane) FV_BITS(0x2F, lane, 0 << 1)
#define FV_VSUB(lane) FV_BITS(0x2F, lane, 1 << 1)
#define FV_VXOR(lane) FV_BITS(0x2F, lane, 9 << 1)
#define FV_VAND(lane) FV_BITS(0x2F, lane, 10 << 1)
#define FV_VOR(lane) FV_BITS(0x2F, lane, 11 << 1)
#define FV_VMUL(lane) FV_BITS(0x2F, lane, 12 << 1)
#define FV_VBCAST FV_BITS(0x10, 0, 0)  /* vector rd, scalar rs1; rs2 0 */
#define FV_VEXTR FV_BITS(0x10, 2, 0)   /* scalar rd, vector rs1; rs2 0 */
#define FV_VLD FV_BITS(0x11, 0, 0)     /* vector rd, scalar rs1; rs2 0 */
#define FV_VST FV_BITS(0x12, 0, 0)     /* rd 0; scalar rs1, vector rs2 */

static inline uint32_t fv_r(uint32_t bits, uint32_t rd, uint32_t rs1, uint32_t rs2)
{
    return bits | rd << 7 | rs1 << 15 | rs2 << 20;
}

/* ---- rd, rs1, 12 bits ---- */

#define FV_ADDI FV_BITS(0x17, 0, 0)
#define FV_SHLI FV_BITS(0x17, 1, 0)    /* by 0 to 31 */
#define FV_XORI FV_BITS(0x17, 4, 0)
#define FV_LSRI FV_BITS(0x17, 5, 0)
#define FV_ASRI FV_BITS(0x17, 5, 32)
#define FV_ORI FV_BITS(0x17, 6, 0)
#define FV_ANDI FV_BITS(0x17, 7, 0)
#define FV_LB FV_BITS(0x0C, 0, 0)
#define FV_LH FV_BITS(0x0C, 1, 0)
#define FV_LW FV_BITS(0x0C, 2, 0)

static inline uint32_t fv_i(uint32_t bits, uint32_t rd, uint32_t rs1, int32_t immediate)
{
    return bits | rd << 7 | rs1 << 15 | (uint32_t)immediate << 20;
}

/* ---- stores: rs2 to rs1 plus 12 bits ---- */

#define FV_SB FV_BITS(0x0D, 0, 0)
#define FV_SH FV_BITS(0x0D, 1, 0)
#define FV_SW FV_BITS(0x0D, 2, 0)

static inline uint32_t fv_s(uint32_t bits, uint32_t rs2, uint32_t rs1, int32_t immediate)
{
    uint32_t i = (uint32_t)immediate;
    return bits | rs1 << 15 | rs2 << 20 | (i & 31) << 7 | i >> 5 << 25;
}

/* ---- branches: rs1, rs2, and an even number of bytes from this word ---- */

#define FV_BEQ FV_BITS(0x0E, 0, 0)
#define FV_BNE FV_BITS(0x0E, 1, 0)
#define FV_BLT FV_BITS(0x0E, 4, 0)
#define FV_BGE FV_BITS(0x0E, 5, 0)
#define FV_BLTU FV_BITS(0x0E, 6, 0)
#define FV_BGEU FV_BITS(0x0E, 7, 0)

static inline uint32_t fv_b(uint32_t bits, uint32_t rs1, uint32_t rs2, int32_t bytes)
{
    uint32_t i = (uint32_t)bytes;
    return bits | rs1 << 15 | rs2 << 20 | (i >> 11 & 1) << 7 | (i >> 1 & 15) << 8 | (i >> 5 & 63) << 25
           | (i >> 12 & 1) << 31;
}

/* ---- rd, the upper 20 bits ---- */

#define FV_LUI FV_BITS(0x37, 0, 0)

static inline uint32_t fv_u(uint32_t bits, uint32_t rd, uint32_t upper)
{
    return bits | rd << 7 | upper << 12;
}

/* ---- no fields ---- */

#define FV_MEMBAR FV_BITS(0x0F, 0, 0)
#define FV_WFI FV_BITS(0x0F, 7, 0)

#endif
