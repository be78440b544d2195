#include "cases/kernels/table.h"

#define F3(n) ((uint32_t)(n) << 12)
#define F7(n) ((uint32_t)(n) << 25)
#define F6(n) ((uint32_t)(n) << 26)

enum {
    INT = 0x0B, INT_IMM = 0x17, LUI = 0x37, BRANCH = 0x0E, LOAD = 0x0C,
    STORE = 0x0D, SYSTEM = 0x0F, VECTOR = 0x2F, TRANSFER = 0x10, VLOAD = 0x11,
    VSTORE = 0x12
};

#define M_OPCODE 0x0000007Fu
#define M_F3 0x0000707Fu    /* opcode and funct3 */
#define M_F7 0xFE00707Fu    /* and funct7, or funct6 and bit 25 */
#define M_RS2 0xFFF0707Fu   /* and the rs2 field */
#define M_RD 0xFE007FFFu    /* funct7, funct3, rd and opcode */
#define M_ALL 0xFFFFFFFFu

#define INT_ROW(n, f7, f3) { n, SHAPE_R, M_F7, F7(f7) | F3(f3) | INT }
#define IMM_ROW(n, f3) { n, SHAPE_I, M_F3, F3(f3) | INT_IMM }
#define SHAMT_ROW(n, f7, f3) { n, SHAPE_SHAMT, M_F7, F7(f7) | F3(f3) | INT_IMM }
#define BRANCH_ROW(n, f3) { n, SHAPE_B, M_F3, F3(f3) | BRANCH }
#define VECTOR_ROWS(n, f6) \
    { n ".I32", SHAPE_V, M_F7, F6(f6) | F3(0) | VECTOR }, \
    { n ".I16", SHAPE_V, M_F7, F6(f6) | F3(1) | VECTOR }, \
    { n ".I8", SHAPE_V, M_F7, F6(f6) | F3(2) | VECTOR }

/* ABS stands before SHL: the first row that fits is the word's. */
const struct row table[ROWS] = {
    INT_ROW("ADD", 0, 0),
    { "ABS", SHAPE_ABS, M_RS2, F3(1) | INT },
    INT_ROW("SHL", 0, 1), INT_ROW("MIN", 0, 2), INT_ROW("MAX", 0, 3),
    INT_ROW("XOR", 0, 4), INT_ROW("LSR", 0, 5), INT_ROW("OR", 0, 6),
    INT_ROW("AND", 0, 7), INT_ROW("SUB", 32, 0), INT_ROW("ASR", 32, 5),
    INT_ROW("MUL", 1, 0),
    { "CLZ", SHAPE_COUNT, M_F7, F7(3) | F3(0) | INT },
    { "CTZ", SHAPE_COUNT, M_F7, F7(3) | F3(1) | INT },
    IMM_ROW("ADDI", 0), IMM_ROW("XORI", 4), IMM_ROW("ORI", 6),
    IMM_ROW("ANDI", 7), SHAMT_ROW("SHL imm", 0, 1), SHAMT_ROW("LSR imm", 0, 5),
    SHAMT_ROW("ASR imm", 32, 5),
    { "LUI", SHAPE_U, M_OPCODE, LUI },
    BRANCH_ROW("BEQ", 0), BRANCH_ROW("BNE", 1), BRANCH_ROW("BLT", 4),
    BRANCH_ROW("BGE", 5), BRANCH_ROW("BLTU", 6), BRANCH_ROW("BGEU", 7),
    { "LB", SHAPE_LOAD, M_F3, F3(0) | LOAD },
    { "LH", SHAPE_LOAD, M_F3, F3(1) | LOAD },
    { "LW", SHAPE_LOAD, M_F3, F3(2) | LOAD },
    { "SB", SHAPE_STORE, M_F3, F3(0) | STORE },
    { "SH", SHAPE_STORE, M_F3, F3(1) | STORE },
    { "SW", SHAPE_STORE, M_F3, F3(2) | STORE },
    { "MEMBAR", SHAPE_FIXED, M_ALL, F3(0) | SYSTEM },
    { "WFI", SHAPE_FIXED, M_ALL, F3(7) | SYSTEM },
    VECTOR_ROWS("VADD", 0), VECTOR_ROWS("VSUB", 1), VECTOR_ROWS("VXOR", 9),
    VECTOR_ROWS("VAND", 10), VECTOR_ROWS("VOR", 11), VECTOR_ROWS("VMUL", 12),
    { "VBCAST", SHAPE_VBCAST, M_RS2, F3(0) | TRANSFER },
    { "VEXTR", SHAPE_VEXTR, M_RS2, F3(2) | TRANSFER },
    { "VLD", SHAPE_VLD, M_RS2, F3(0) | VLOAD },
    { "VST", SHAPE_VST, M_RD, F3(0) | VSTORE }
};

int row_of(uint32_t word)
{
    for (int i = 0; i < ROWS; i++) {
        if ((word & table[i].mask) == table[i].match)
            return i;
    }
    return -1;
}

uint32_t word_r(int row, uint32_t rd, uint32_t rs1, uint32_t rs2)
{
    return table[row].match | (rd & 31) << 7 | (rs1 & 31) << 15
        | (rs2 & 31) << 20;
}

uint32_t word_i(int row, uint32_t rd, uint32_t rs1, int32_t imm)
{
    return table[row].match | (rd & 31) << 7 | (rs1 & 31) << 15
        | ((uint32_t)imm & 0xFFF) << 20;
}

uint32_t word_s(int row, uint32_t rs1, uint32_t rs2, int32_t imm)
{
    uint32_t u = (uint32_t)imm;

    return table[row].match | (u & 31) << 7 | (rs1 & 31) << 15
        | (rs2 & 31) << 20 | (u >> 5 & 127) << 25;
}

uint32_t word_b(int row, uint32_t rs1, uint32_t rs2, int32_t offset)
{
    uint32_t u = (uint32_t)offset;

    return table[row].match | (u >> 11 & 1) << 7 | (u >> 1 & 15) << 8
        | (rs1 & 31) << 15 | (rs2 & 31) << 20 | (u >> 5 & 63) << 25
        | (u >> 12 & 1) << 31;
}

uint32_t word_u(int row, uint32_t rd, uint32_t high)
{
    return table[row].match | (rd & 31) << 7 | (high & 0xFFFFF) << 12;
}
