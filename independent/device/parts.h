/* What the files of the device share with each other. The cases write commands
 * by it. */
#ifndef IND_PARTS_H
#define IND_PARTS_H

#include "device.h"

enum { WORD = 4, VECTOR_BYTES = WORD * IND_VECTOR_WORDS }; /* bytes */

/* What a turn is lent, in one piece. */
struct ind_lent {
    uint8_t *memory;
    size_t memory_len;
    const uint8_t *const *ring;
    const size_t *ring_len;
    const uint8_t *pack;
    size_t pack_len;
    uint8_t *pipe;
    size_t pipe_len;
};

/* ---- words.c: numbers ---- */

uint32_t ind_get(const uint8_t *bytes, uint32_t count);
void ind_put(uint8_t *bytes, uint32_t count, uint32_t value);
uint32_t ind_sign_extend(uint32_t value, uint32_t bits);
int ind_signed_below(uint32_t a, uint32_t b);
uint32_t ind_shift_signed(uint32_t value, uint32_t by);
uint32_t ind_leading_zeros(uint32_t value);
uint32_t ind_trailing_zeros(uint32_t value);
int ind_is_four(uint32_t value);

/* ---- memory.c: a window ---- */

/* Either all bytes lie in the window, or one address is the first outside. */
struct ind_reach {
    int inside;
    uint32_t outside; /* 0 if all lie inside */
};

struct ind_reach ind_reach(const struct ind_window *window, uint32_t address,
                           uint64_t bytes);
uint32_t ind_load(const struct ind_window *window, uint32_t address,
                  uint32_t count);
void ind_store(const struct ind_window *window, uint32_t address,
               uint32_t count, uint32_t value);

/* ---- decode.c: the instruction list ---- */

enum ind_kind {
    KIND_NOT_LISTED,
    KIND_COMPUTE, /* scalar rd from scalar rs1 and rs2 or imm */
    KIND_LUI,
    KIND_BRANCH,
    KIND_LOAD,
    KIND_STORE,
    KIND_MEMBAR,
    KIND_WFI,
    KIND_VECTOR, /* vector rd from vector rs1 and rs2, lane by lane */
    KIND_VBCAST,
    KIND_VEXTR,
    KIND_VLD,
    KIND_VST
};

/* What a COMPUTE, VECTOR or BRANCH does with its two operands. */
enum ind_op {
    OP_NONE,
    OP_ADD, OP_SUB, OP_MUL, OP_AND, OP_OR, OP_XOR,
    OP_SHL, OP_LSR, OP_ASR, OP_MIN, OP_MAX, OP_ABS, OP_CLZ, OP_CTZ,
    OP_EQ, OP_NE, OP_LT, OP_GE, OP_LTU, OP_GEU
};

struct ind_instruction {
    enum ind_kind kind;
    enum ind_op op;
    uint32_t rd, rs1, rs2;
    uint32_t imm;       /* sign extended, by the instruction's shape, or 0 */
    uint32_t takes_imm; /* second operand is imm, not register rs2 */
    uint32_t size;      /* bytes of a load or store, or of a lane */
};

struct ind_instruction ind_decode(uint32_t word);

/* ---- compute.c: what an op does ---- */

uint32_t ind_compute(enum ind_op op, uint32_t a, uint32_t b);
int ind_compare(enum ind_op op, uint32_t a, uint32_t b);
uint32_t ind_lanes(enum ind_op op, uint32_t size, uint32_t a, uint32_t b);

/* ---- command.c: a command's shape and its header faults ---- */

enum {
    FLAG_IRQ = 1, FLAG_EMIT = 2, FLAG_WAIT = 4, FLAG_PAYLOAD = 8,
    FLAGS_RESERVED = 0xF0
};

enum {
    WRITE_MEM = 0x01, READ_MEM = 0x02, FILL_RECT = 0x10, BLIT = 0x11,
    DISPATCH_1D = 0x20, BARRIER = 0x22, COPY_BUFFER = 0x23, SET_FB = 0x30
};

struct ind_command {
    uint32_t opcode, flags, rdst, len, arg0, arg1, arg2;
    uint32_t target;        /* 0 unless it waits */
    uint32_t size;          /* bytes, all parts together */
    const uint8_t *payload; /* NULL unless its payload bit is set */
};

int ind_command_whole(const uint8_t *ring, size_t ring_len, uint32_t cursor,
                      struct ind_command *command);
uint32_t ind_header_fault(const struct ind_command *command);

/* ---- faults.c: outcomes 5 to 10 ---- */

struct ind_size {
    uint32_t width, height;
};

struct ind_size ind_rectangle_size(const struct ind_command *command);
uint32_t ind_frame_fault(const struct ind_frame *frame, uint32_t window_length);
struct ind_frame ind_frame_asked(const struct ind_command *command);
uint32_t ind_work_fault(const struct ind_device *device, uint32_t ring,
                        const struct ind_command *command,
                        const struct ind_lent *lent);

/* ---- counts.c: commands taken ---- */

int ind_counts_agree(const struct ind_device *device);
void ind_count(struct ind_device *device, uint32_t ring, uint32_t outcome);

/* ---- slots.c: the slots of either edition ---- */

#define HALF_RANGE 0x80000000u /* 2,147,483,648: half of all numbers */

int ind_slot_met(const struct ind_device *device, uint32_t slot,
                 uint32_t target);
int ind_slot_full(const struct ind_device *device, uint32_t slot);
uint32_t ind_slot_emit(struct ind_device *device, uint32_t slot);

/* ---- work.c: a faultless command's work ---- */

uint32_t ind_work(struct ind_device *device, uint32_t ring,
                  const struct ind_command *command,
                  const struct ind_lent *lent, struct ind_stop *stop);

/* ---- device.c: a making ---- */

/* What is chosen at it. */
struct ind_choice {
    uint32_t limit, edition;
    uint32_t first; /* number of all slots; 0 in edition 1 */
};

uint32_t ind_make(struct ind_device *device, uint64_t memory_len,
                  const uint32_t windows[IND_RINGS][2],
                  const struct ind_choice *choice);

#endif
