/* The instruction list, one function for each row that needs a choice. */
#include "parts.h"

enum {
    ROW_INT = 0x0B,     /* 0001011 */
    ROW_INT_IMM = 0x17, /* 0010111 */
    ROW_LUI = 0x37,     /* 0110111 */
    ROW_BRANCH = 0x0E,  /* 0001110 */
    ROW_LOAD = 0x0C,    /* 0001100 */
    ROW_STORE = 0x0D,   /* 0001101 */
    ROW_SYSTEM = 0x0F,  /* 0001111 */
    ROW_VECTOR = 0x2F,  /* 0101111 */
    ROW_TRANSFER = 0x10, /* 0010000 */
    ROW_VLD = 0x11,     /* 0010001 */
    ROW_VST = 0x12      /* 0010010 */
};

/* bits is below 32. */
static uint32_t field(uint32_t word, uint32_t low, uint32_t bits)
{
    return (word >> low) & (((uint32_t)1 << bits) - 1);
}

static uint32_t funct3(uint32_t word)
{
    return field(word, 12, 3);
}

static uint32_t funct7(uint32_t word)
{
    return field(word, 25, 7);
}

static uint32_t imm_i(uint32_t word)
{
    return ind_sign_extend(field(word, 20, 12), 12);
}

static uint32_t imm_s(uint32_t word)
{
    return ind_sign_extend(field(word, 25, 7) << 5 | field(word, 7, 5), 12);
}

static uint32_t imm_b(uint32_t word)
{
    return ind_sign_extend(field(word, 31, 1) << 12 | field(word, 7, 1) << 11
                           | field(word, 25, 6) << 5 | field(word, 8, 4) << 1,
                           13);
}

static enum ind_op int_op(uint32_t word)
{
    static const enum ind_op plain[8] = {
        OP_ADD, OP_SHL, OP_MIN, OP_MAX, OP_XOR, OP_LSR, OP_OR, OP_AND
    };
    uint32_t f3 = funct3(word);

    switch (funct7(word)) {
    case 0: /* ABS and SHL share a code: the rs2 field tells them apart */
        return f3 == 1 && field(word, 20, 5) == 0 ? OP_ABS : plain[f3];
    case 32:
        return f3 == 0 ? OP_SUB : f3 == 5 ? OP_ASR : OP_NONE;
    case 1:
        return f3 == 0 ? OP_MUL : OP_NONE;
    case 3:
        return f3 == 0 ? OP_CLZ : f3 == 1 ? OP_CTZ : OP_NONE;
    default:
        return OP_NONE;
    }
}

/* imm[11:5] stands where funct7 does. */
static enum ind_op int_imm_op(uint32_t word)
{
    switch (funct3(word)) {
    case 0:
        return OP_ADD;
    case 1:
        return funct7(word) == 0 ? OP_SHL : OP_NONE;
    case 4:
        return OP_XOR;
    case 5:
        return funct7(word) == 0 ? OP_LSR
             : funct7(word) == 32 ? OP_ASR : OP_NONE;
    case 6:
        return OP_OR;
    case 7:
        return OP_AND;
    default:
        return OP_NONE;
    }
}

static enum ind_op branch_op(uint32_t word)
{
    static const enum ind_op ops[8] = {
        OP_EQ, OP_NE, OP_NONE, OP_NONE, OP_LT, OP_GE, OP_LTU, OP_GEU
    };

    return ops[funct3(word)];
}

/* funct6 with bit 25 clear after it. */
static enum ind_op vector_op(uint32_t word)
{
    if (field(word, 25, 1) != 0 || funct3(word) > 2)
        return OP_NONE;
    switch (field(word, 26, 6)) {
    case 0:
        return OP_ADD;
    case 1:
        return OP_SUB;
    case 9:
        return OP_XOR;
    case 10:
        return OP_AND;
    case 11:
        return OP_OR;
    case 12:
        return OP_MUL;
    default:
        return OP_NONE;
    }
}

static enum ind_kind if_listed(enum ind_op op, enum ind_kind kind)
{
    return op == OP_NONE ? KIND_NOT_LISTED : kind;
}

/* MEMBAR and WFI have one word each. */
static enum ind_kind system_kind(uint32_t word)
{
    if (word == ROW_SYSTEM)
        return KIND_MEMBAR;
    return word == (ROW_SYSTEM | 7u << 12) ? KIND_WFI : KIND_NOT_LISTED;
}

/* Of these three rows, fields that are not used must be 0. */
static enum ind_kind transfer_kind(uint32_t word, uint32_t rd, uint32_t rs2)
{
    if (funct7(word) != 0)
        return KIND_NOT_LISTED;
    switch (field(word, 0, 7)) {
    case ROW_VLD:
        return funct3(word) == 0 && rs2 == 0 ? KIND_VLD : KIND_NOT_LISTED;
    case ROW_VST:
        return funct3(word) == 0 && rd == 0 ? KIND_VST : KIND_NOT_LISTED;
    default:
        if (rs2 != 0)
            return KIND_NOT_LISTED;
        return funct3(word) == 0 ? KIND_VBCAST
             : funct3(word) == 2 ? KIND_VEXTR : KIND_NOT_LISTED;
    }
}

/* The rows whose kind hangs on an op. */
static void decode_op(struct ind_instruction *in, uint32_t word)
{
    switch (field(word, 0, 7)) {
    case ROW_INT:
        in->op = int_op(word);
        in->kind = if_listed(in->op, KIND_COMPUTE);
        break;
    case ROW_INT_IMM:
        in->op = int_imm_op(word);
        in->kind = if_listed(in->op, KIND_COMPUTE);
        in->imm = imm_i(word);
        in->takes_imm = 1;
        break;
    case ROW_BRANCH:
        in->op = branch_op(word);
        in->kind = if_listed(in->op, KIND_BRANCH);
        in->imm = imm_b(word);
        break;
    default: /* ROW_VECTOR: 0 is I32, 1 I16, 2 I8 */
        in->op = vector_op(word);
        in->kind = if_listed(in->op, KIND_VECTOR);
        in->size = 4 >> (funct3(word) & 3);
        break;
    }
}

/* Loads and stores: funct3 0 is a byte, 1 a half, 2 a word. */
static void decode_access(struct ind_instruction *in, uint32_t word)
{
    int loads = field(word, 0, 7) == ROW_LOAD;

    if (funct3(word) > 2)
        return;
    in->kind = loads ? KIND_LOAD : KIND_STORE;
    in->imm = loads ? imm_i(word) : imm_s(word);
    in->size = (uint32_t)1 << funct3(word);
}

struct ind_instruction ind_decode(uint32_t word)
{
    struct ind_instruction in = {
        .kind = KIND_NOT_LISTED, .op = OP_NONE, .rd = field(word, 7, 5),
        .rs1 = field(word, 15, 5), .rs2 = field(word, 20, 5),
        .imm = 0, .takes_imm = 0, .size = 4
    };

    switch (field(word, 0, 7)) {
    case ROW_INT:
    case ROW_INT_IMM:
    case ROW_BRANCH:
    case ROW_VECTOR:
        decode_op(&in, word);
        break;
    case ROW_LUI:
        in.kind = KIND_LUI;
        in.imm = field(word, 12, 20) << 12;
        break;
    case ROW_LOAD:
    case ROW_STORE:
        decode_access(&in, word);
        break;
    case ROW_SYSTEM:
        in.kind = system_kind(word);
        break;
    case ROW_TRANSFER:
    case ROW_VLD:
    case ROW_VST:
        in.kind = transfer_kind(word, in.rd, in.rs2);
        break;
    default:
        break;
    }
    return in;
}
