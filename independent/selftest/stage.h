/* What the selftest's files share: checks that end the run at the first
 * failure, instruction words, and a stage that lends a device its pieces. */
#ifndef IND_STAGE_H
#define IND_STAGE_H

#include "cases/words.h"
#include "device/device.h"

#define COUNT(list) (sizeof list / sizeof list[0])

#define CHECK_EQ(got, want) check_equal((got), (want), #got, __FILE__, __LINE__)
#define CHECK(holds) CHECK_EQ((holds) ? 1 : 0, 1)

void check_equal(uint64_t got, uint64_t want, const char *what,
                 const char *file, int line);

/* ---- instruction words, by the shapes of the RISC-V manual ---- */

enum {
    INT = 0x0B, INT_IMM = 0x17, LUI = 0x37, BRANCH = 0x0E, LOAD = 0x0C,
    STORE = 0x0D, VECTOR = 0x2F, TRANSFER = 0x10, VLD = 0x11, VST = 0x12
};

#define MEMBAR 0x0000000Fu
#define WFI 0x0000700Fu

uint32_t r_shape(uint32_t opcode, uint32_t funct7, uint32_t funct3, uint32_t rd,
                 uint32_t rs1, uint32_t rs2);
uint32_t i_shape(uint32_t opcode, uint32_t funct3, uint32_t rd, uint32_t rs1,
                 int32_t imm);
uint32_t s_shape(uint32_t funct3, uint32_t rs1, uint32_t rs2, int32_t imm);
uint32_t b_shape(uint32_t funct3, uint32_t rs1, uint32_t rs2, int32_t imm);

/* Takes one step in a kernel of one word, with an empty window of no memory. */
uint32_t run_word(struct ind_thread *thread, uint32_t word);

/* ---- the stage ---- */

struct stage {
    struct ind_device device;
    uint8_t memory[IND_MEMORY_MOST + 4];
    size_t memory_len;
    uint8_t ring[IND_RINGS][IND_RING_MOST + 4];
    size_t ring_len[IND_RINGS];
    uint8_t pack[IND_PACK_LEAST + IND_PAIR_BYTES * (IND_KERNELS_MOST + 1)
                 + 4 * (IND_CODE_MOST + 1)];
    size_t pack_len;
    uint8_t pipe[IND_PIPE_LEAST];
    size_t pipe_len;
    struct ind_report report;
};

/* A fresh device; all four windows are (0, length), and so is the memory. The
 * pack has no kernel, the rings are empty, the pipe holds AA bytes. */
struct stage *stage_new(uint32_t length);
struct stage *stage_copy(const struct stage *stage);
void stage_free(struct stage *stage);

/* One turn on copies that are exactly as long as they are said to be. */
uint32_t stage_turn(struct stage *stage);

/* A turn that must be served on ring 0; gives the outcome. */
uint32_t stage_serve(struct stage *stage);

/* A turn that must give this status, idle or a refusal: it reports nothing
 * else and changes nothing. */
void stage_unserved(struct stage *stage, uint32_t status);

/* Takes over device, memory and pipe as they are now. */
void stage_keep(struct stage *kept, const struct stage *stage);

/* Device, memory and pipe are the same in both. */
int stage_same(const struct stage *a, const struct stage *b);

/* The first word of a header. */
uint32_t head(uint32_t opcode, uint32_t flags, uint32_t rdst, uint32_t len);
uint32_t wide_high(uint32_t width, uint32_t height);

void push_word(struct stage *stage, uint32_t ring, uint32_t word);
void push(struct stage *stage, uint32_t ring, uint32_t first, uint32_t arg0,
          uint32_t arg1, uint32_t arg2);

/* Pushes one command, a header alone, on ring 0 and serves it. */
uint32_t serve(struct stage *stage, uint32_t first, uint32_t arg0,
               uint32_t arg1, uint32_t arg2);

/* The same, and checks the outcome and that memory, pipe and frame stay. */
void serve_unchanged(struct stage *stage, uint32_t outcome, uint32_t first,
                     uint32_t arg0, uint32_t arg1, uint32_t arg2);

/* Pushes a command with this outcome and slot 0, these flags besides its own: 4
 * has no slot, 5 needs FULL_SLOT full in edition 1, 6 to 8 windows of 64 bytes
 * and no frame, 11 to 14 the kernel that pack_stop makes. */
enum { FULL_SLOT = IND_SLOTS - 1 };
void push_outcome(struct stage *stage, uint32_t ring, uint32_t outcome,
                  uint32_t flags);
void pack_stop(struct stage *stage, uint32_t outcome);

/* A turn on bytes: four times the same ring, 64 bytes of memory, an empty
 * pack. */
uint32_t turn_on_bytes(uint8_t *image, size_t image_len, const uint8_t *ring,
                       size_t ring_len, size_t pipe_len, uint8_t *report,
                       size_t report_len);

/* A pack of one kernel that is all its code. */
void pack_one(struct stage *stage, const uint32_t *words, uint32_t count);

/* ---- the files of the selftest ---- */

void test_commands(void);
void test_copies(void);
void test_turns(void);
void test_calls(void);
void test_limits(void);
void test_counts(void);
void test_editions(void);
void test_kernels(void);
void test_lanes(void);
void test_stops(void);
void test_replay(void);
void test_image(void);
void test_nulls(void);

#endif
