/* Kernels: the instruction list, each instruction, outcomes 11 to 14. */
#include "selftest/stage.h"

#include <string.h>

enum { WINDOW = 64, AWAY = 8 }; /* the window starts 8 bytes into the memory */

struct rig {
    struct ind_thread thread;
    uint8_t memory[WINDOW + 2 * AWAY];
};

static void rig_start(struct rig *rig)
{
    ind_thread_start(&rig->thread, 0, 0, 1, 1);
    for (uint32_t i = 0; i < sizeof rig->memory; i++)
        rig->memory[i] = (uint8_t)(0xF0 + i);
}

/* One step of a kernel of `words`, at the thread's place. */
static uint32_t step(struct rig *rig, const uint32_t *words, uint32_t count)
{
    uint8_t code[64];
    const struct ind_kernel kernel = {0, count, code};
    const struct ind_window window = {rig->memory, AWAY, WINDOW};
    uint32_t outside;

    for (uint32_t i = 0; i < count; i++)
        put_word(code + 4 * i, words[i]);
    return ind_step(&rig->thread, &kernel, &window, IND_LIMIT_DEFAULT,
                    &outside);
}

static uint32_t step_one(struct rig *rig, uint32_t word)
{
    rig->thread.place = 0;
    return step(rig, &word, 1);
}

/* How many (opcode, funct7, funct3) are listed, all register fields set so. */
static uint32_t listed(uint32_t rd, uint32_t rs1, uint32_t rs2)
{
    struct rig rig;
    uint32_t count = 0;

    rig_start(&rig);
    for (uint32_t code = 0; code < 128 * 128 * 8; code++) {
        rig.thread.steps = 0;
        count += step_one(&rig, r_shape(code / 8 % 128, code / 1024, code % 8,
                                        rd, rs1, rs2)) != 11;
    }
    return count;
}

/* By the table: 13 INT, 4*128+3 INT_IMM, 8*128 LUI, 6*128 branches, 2*3*128
 * loads and stores, 18 vector; then the rows whose unused fields must be 0. */
static void instruction_list(void)
{
    const uint32_t plain = 13 + 515 + 1024 + 768 + 768 + 18;

    /* system; VBCAST and VEXTR; VLD; VST */
    CHECK_EQ(listed(0, 0, 0), plain + 2 + 2 + 1 + 1);
    CHECK_EQ(listed(0, 1, 0), plain + 2 + 1 + 1);
    CHECK_EQ(listed(1, 1, 0), plain + 2 + 1);
    CHECK_EQ(listed(0, 1, 1), plain + 1);
    CHECK_EQ(listed(1, 0, 1), plain);
    CHECK_EQ(listed(31, 31, 31), plain);
}

/* s7 from s5 and s6 by one word. */
static void gives(uint32_t word, uint32_t s5, uint32_t s6, uint32_t want)
{
    struct rig rig;

    rig_start(&rig);
    rig.thread.scalar[5] = s5;
    rig.thread.scalar[6] = s6;
    rig.thread.scalar[7] = 0xDEADBEEF;
    struct rig before = rig;
    CHECK_EQ(step_one(&rig, word), IND_GOES_ON);
    CHECK_EQ(rig.thread.scalar[7], want);
    before.thread.scalar[7] = want;
    before.thread.place = 4;
    before.thread.steps = 1;
    CHECK_EQ(memcmp(&before, &rig, sizeof rig), 0);
}

static void by_registers(uint32_t funct7, uint32_t funct3, uint32_t s5,
                         uint32_t s6, uint32_t want)
{
    gives(r_shape(INT, funct7, funct3, 7, 5, 6), s5, s6, want);
}

static void register_instructions(void)
{
    by_registers(0, 0, 0xFFFFFFFF, 2, 1);
    by_registers(32, 0, 1, 2, 0xFFFFFFFF);
    by_registers(1, 0, 0x10001, 0x10001, 0x20001);
    by_registers(1, 0, 0xFFFFFFFF, 0xFFFFFFFF, 1);
    by_registers(0, 1, 1, 31, 0x80000000);
    by_registers(0, 1, 3, 32, 3);
    by_registers(0, 1, 3, 0, 3); /* rs2 is not field 0: a shift, by 0 */
    by_registers(0, 1, 0x80000001, 0xFFFFFFE1, 2);
    by_registers(0, 5, 0x80000000, 31, 1);
    by_registers(0, 5, 0x80000000, 32, 0x80000000);
    by_registers(32, 5, 0x80000000, 31, 0xFFFFFFFF);
    by_registers(32, 5, 0x80000000, 0, 0x80000000);
    by_registers(32, 5, 0x40000000, 30, 1);
    by_registers(0, 2, 0x80000000, 0x7FFFFFFF, 0x80000000);
    by_registers(0, 2, 5, 3, 3);
    by_registers(0, 3, 0x80000000, 0x7FFFFFFF, 0x7FFFFFFF);
    by_registers(0, 3, 0xFFFFFFFF, 0, 0);
    by_registers(0, 4, 0xFF00FF00, 0x0FF00FF0, 0xF0F0F0F0);
    by_registers(0, 6, 0xFF00FF00, 0x0FF00FF0, 0xFFF0FFF0);
    by_registers(0, 7, 0xFF00FF00, 0x0FF00FF0, 0x0F000F00);
    by_registers(3, 0, 0x00010000, 99, 15);
    by_registers(3, 0, 0xFFFFFFFF, 99, 0);
    by_registers(3, 1, 0x00010000, 99, 16);
    by_registers(3, 1, 0x80000000, 99, 31);
    by_registers(3, 0, 0, 99, 32);
    by_registers(3, 1, 0, 99, 32);
    gives(r_shape(INT, 0, 1, 7, 5, 0), 0x80000000, 0, 0x80000000);
    gives(r_shape(INT, 0, 1, 7, 5, 0), 0xFFFFFFF6, 0, 10);
    gives(r_shape(INT, 0, 1, 7, 5, 0), 0x7FFFFFFF, 0, 0x7FFFFFFF);
}

static void immediate_instructions(void)
{
    gives(i_shape(INT_IMM, 0, 7, 5, -2048), 2047, 0, 0xFFFFFFFF);
    gives(i_shape(INT_IMM, 0, 7, 5, 2047), 1, 0, 2048);
    gives(i_shape(INT_IMM, 4, 7, 5, -1), 0x0F0F0F0F, 0, 0xF0F0F0F0);
    gives(i_shape(INT_IMM, 6, 7, 5, -2048), 1, 0, 0xFFFFF801);
    gives(i_shape(INT_IMM, 7, 7, 5, -16), 0xFFFFFFFF, 0, 0xFFFFFFF0);
    gives(i_shape(INT_IMM, 1, 7, 5, 31), 3, 0, 0x80000000);
    gives(i_shape(INT_IMM, 1, 7, 5, 0), 0xFFFFFFFF, 0, 0xFFFFFFFF);
    gives(i_shape(INT_IMM, 5, 7, 5, 31), 0x80000000, 0, 1);
    gives(i_shape(INT_IMM, 5, 7, 5, 0), 0x80000000, 0, 0x80000000);
    gives(i_shape(INT_IMM, 5, 7, 5, 1024 + 4), 0x80000000, 0, 0xF8000000);
    gives(i_shape(INT_IMM, 5, 7, 5, 1024), 0x80000000, 0, 0x80000000);
    gives(0xFFFFF000u | 7 << 7 | LUI, 0, 0, 0xFFFFF000);
    gives(0x12345000u | 7 << 7 | LUI, 0, 0, 0x12345000);
    gives(MEMBAR, 0, 0, 0xDEADBEEF);
}

/* s0 is never written, and reads 0 even in a state that says otherwise. */
static void s0_stays(void)
{
    const uint32_t writes[] = {
        i_shape(INT_IMM, 0, 0, 0, 5), r_shape(INT, 0, 0, 0, 5, 5),
        i_shape(LOAD, 2, 0, 0, 0), 0xFFFFF000u | LUI,
        r_shape(TRANSFER, 0, 2, 0, 1, 0)
    };
    struct rig rig;

    rig_start(&rig);
    rig.thread.scalar[5] = rig.thread.vector[1][0] = 3;
    for (uint32_t i = 0; i < 5; i++) {
        CHECK_EQ(step_one(&rig, writes[i]), IND_GOES_ON);
        CHECK_EQ(rig.thread.scalar[0], 0);
    }
    CHECK_EQ(step_one(&rig, i_shape(LOAD, 2, 0, 0, -4)), 13);
    rig.thread.scalar[0] = 77;
    CHECK_EQ(step_one(&rig, i_shape(INT_IMM, 0, 7, 0, 5)), IND_GOES_ON);
    CHECK_EQ(rig.thread.scalar[7], 5);
    CHECK_EQ(step_one(&rig, r_shape(TRANSFER, 0, 0, 3, 0, 0)), IND_GOES_ON);
    CHECK_EQ(rig.thread.vector[3][3], 0);
}

/* Whether a branch of s5 and s6 is taken: over one word, or not. */
static int taken(uint32_t funct3, uint32_t s5, uint32_t s6)
{
    const uint32_t words[] = {b_shape(funct3, 5, 6, 8), MEMBAR, MEMBAR};
    struct rig rig;

    rig_start(&rig);
    rig.thread.scalar[5] = s5;
    rig.thread.scalar[6] = s6;
    CHECK_EQ(step(&rig, words, 3), IND_GOES_ON);
    CHECK(rig.thread.place == 4 || rig.thread.place == 8);
    return rig.thread.place == 8;
}

static void branches_taken(void)
{
    const uint32_t pairs[][2] = {
        {0, 0}, {0, 1}, {1, 0}, {0xFFFFFFFF, 1}, {1, 0xFFFFFFFF},
        {0x80000000, 0x7FFFFFFF}, {0x7FFFFFFF, 0x80000000}
    };
    const int want[][7] = { /* BEQ, BNE, BLT, BGE, BLTU, BGEU */
        {1, 0, 0, 0, 0, 0, 0}, {0, 1, 1, 1, 1, 1, 1}, {0, 1, 0, 1, 0, 1, 0},
        {1, 0, 1, 0, 1, 0, 1}, {0, 1, 0, 0, 1, 0, 1}, {1, 0, 1, 1, 0, 1, 0}
    };
    const uint32_t funct3[] = {0, 1, 4, 5, 6, 7};

    for (uint32_t op = 0; op < 6; op++)
        for (uint32_t i = 0; i < 7; i++)
            CHECK_EQ(taken(funct3[op], pairs[i][0], pairs[i][1]), want[op][i]);
}

/* From place 4 of 4 words: which distances a taken branch may go. */
static void branch_places(void)
{
    for (int32_t by = -4096; by < 4096; by += 2) {
        const uint32_t words[] = {MEMBAR, b_shape(0, 0, 0, by), MEMBAR, MEMBAR};
        const uint32_t not_taken[] = {MEMBAR, b_shape(1, 0, 0, by)};
        int fits = by == -4 || by == 0 || by == 4 || by == 8;
        struct rig rig;
        rig_start(&rig);
        rig.thread.place = 4;
        CHECK_EQ(step(&rig, words, 4), fits ? IND_GOES_ON : 12);
        CHECK_EQ(rig.thread.place, fits ? (uint32_t)(4 + by) : 4);
        CHECK_EQ(rig.thread.steps, fits ? 1 : 0);
        rig.thread.place = 4;
        CHECK_EQ(step(&rig, not_taken, 2), IND_GOES_ON);
        CHECK_EQ(rig.thread.place, 8);
        CHECK_EQ(step(&rig, not_taken, 2), 12); /* off the end */
    }
}

/* An access of `size` bytes fits exactly at addresses 0 to 64 - size. */
static void access_edges(void)
{
    for (uint32_t funct3 = 0; funct3 < 4; funct3++) {
        uint32_t size = funct3 == 3 ? 16 : 1u << funct3;
        uint32_t load = funct3 == 3 ? r_shape(VLD, 0, 0, 7, 5, 0)
                                    : i_shape(LOAD, funct3, 7, 5, 0);
        uint32_t store = funct3 == 3 ? r_shape(VST, 0, 0, 0, 5, 7)
                                     : s_shape(funct3, 5, 7, 0);
        for (uint32_t i = 0; i < 160; i++) {
            uint32_t address = i - 80;
            uint32_t want = i >= 80 && address + size <= WINDOW ? 0 : 13;
            struct rig rig, before;
            rig_start(&rig);
            rig.thread.scalar[5] = address;
            before = rig;
            CHECK_EQ(step_one(&rig, load), want);
            CHECK_EQ(memcmp(rig.memory, before.memory, sizeof rig.memory), 0);
            CHECK(want == 0 || memcmp(&rig, &before, sizeof rig) == 0);
            rig = before;
            CHECK_EQ(step_one(&rig, store), want);
            for (uint32_t at = 0; at < sizeof rig.memory; at++) {
                int hit = want == 0 && at - AWAY - address < size;
                CHECK_EQ(rig.memory[at], hit ? 0 : before.memory[at]);
            }
        }
    }
}

/* Signs, byte order, and an address that wraps into the window. */
static void loads_and_stores(void)
{
    struct rig rig;

    rig_start(&rig); /* address n holds byte F8 + n */
    CHECK_EQ(step_one(&rig, i_shape(LOAD, 0, 7, 0, 7)), 0);
    CHECK_EQ(rig.thread.scalar[7], 0xFFFFFFFF);
    CHECK_EQ(step_one(&rig, i_shape(LOAD, 0, 7, 0, 9)), 0);
    CHECK_EQ(rig.thread.scalar[7], 1);
    CHECK_EQ(step_one(&rig, i_shape(LOAD, 1, 7, 0, 5)), 0);
    CHECK_EQ(rig.thread.scalar[7], 0xFFFFFEFD);
    CHECK_EQ(step_one(&rig, i_shape(LOAD, 1, 7, 0, 9)), 0);
    CHECK_EQ(rig.thread.scalar[7], 0x0201);
    CHECK_EQ(step_one(&rig, i_shape(LOAD, 2, 7, 0, 5)), 0);
    CHECK_EQ(rig.thread.scalar[7], 0x00FFFEFD);
    rig.thread.scalar[5] = 0xFFFFFFFF;
    CHECK_EQ(step_one(&rig, i_shape(LOAD, 0, 7, 5, 10)), 0);
    CHECK_EQ(rig.thread.scalar[7], 1);
    rig.thread.scalar[6] = 0x44332211;
    CHECK_EQ(step_one(&rig, s_shape(0, 5, 6, 2)), 0);
    CHECK_EQ(get_word(rig.memory + AWAY), 0xFBFA11F8);
    CHECK_EQ(step_one(&rig, s_shape(1, 5, 6, 2)), 0);
    CHECK_EQ(get_word(rig.memory + AWAY), 0xFB2211F8);
    rig.thread.scalar[5] = 2047;
    CHECK_EQ(step_one(&rig, s_shape(2, 5, 6, -2047)), 0);
    CHECK_EQ(get_word(rig.memory + AWAY), 0x44332211);
}

/* v3 from v1 and v2, the two words given in word 3 of each. */
static uint32_t lanes(uint32_t funct6, uint32_t funct3, uint32_t a, uint32_t b)
{
    struct rig rig;

    rig_start(&rig);
    rig.thread.vector[1][3] = a;
    rig.thread.vector[2][3] = b;
    CHECK_EQ(step_one(&rig, r_shape(VECTOR, 2 * funct6, funct3, 3, 1, 2)), 0);
    for (uint32_t i = 0; i < 3; i++)
        CHECK_EQ(rig.thread.vector[3][i], 0);
    return rig.thread.vector[3][3];
}

static void vector_lanes(void)
{
    CHECK_EQ(lanes(0, 0, 0xFFFFFFFF, 0x00000101), 0x00000100);
    CHECK_EQ(lanes(1, 0, 0x00000000, 0x00010001), 0xFFFEFFFF);
    CHECK_EQ(lanes(1, 1, 0x00000000, 0x00010001), 0xFFFFFFFF);
    CHECK_EQ(lanes(1, 2, 0x00010000, 0x01000001), 0xFF0100FF);
    CHECK_EQ(lanes(12, 0, 0x00010003, 0x00010002), 0x00050006);
    CHECK_EQ(lanes(12, 1, 0xFFFF0100, 0xFFFF0100), 0x00010000);
    CHECK_EQ(lanes(12, 2, 0xFF10020F, 0xFF100311), 0x010006FF);
    for (uint32_t funct3 = 0; funct3 < 3; funct3++) {
        CHECK_EQ(lanes(9, funct3, 0xFF00FF00, 0x0FF00FF0), 0xF0F0F0F0);
        CHECK_EQ(lanes(10, funct3, 0xFF00FF00, 0x0FF00FF0), 0x0F000F00);
        CHECK_EQ(lanes(11, funct3, 0xFF00FF00, 0x0FF00FF0), 0xFFF0FFF0);
    }
}

/* v0 is ordinary; VLD and VST keep the words' order; rd may be a source. */
static void vector_moves(void)
{
    struct rig rig;

    rig_start(&rig);
    rig.thread.scalar[5] = 0xFFFFFFFE;
    CHECK_EQ(step_one(&rig, r_shape(TRANSFER, 0, 0, 0, 5, 0)), 0);
    for (uint32_t i = 0; i < 4; i++)
        CHECK_EQ(rig.thread.vector[0][i], 0xFFFFFFFE);
    CHECK_EQ(step_one(&rig, r_shape(VECTOR, 0, 0, 0, 0, 0)), 0);
    CHECK_EQ(step_one(&rig, r_shape(TRANSFER, 0, 2, 7, 0, 0)), 0);
    CHECK_EQ(rig.thread.scalar[7], 0xFFFFFFFC);
    rig.thread.scalar[5] = 9;
    CHECK_EQ(step_one(&rig, r_shape(VLD, 0, 0, 8, 5, 0)), 0);
    CHECK_EQ(rig.thread.vector[8][0], 0x04030201);
    CHECK_EQ(rig.thread.vector[8][3], 0x100F0E0D);
    CHECK_EQ(step_one(&rig, r_shape(TRANSFER, 0, 2, 7, 8, 0)), 0);
    CHECK_EQ(rig.thread.scalar[7], 0x04030201);
    rig.thread.scalar[5] = 48;
    CHECK_EQ(step_one(&rig, r_shape(VST, 0, 0, 0, 5, 8)), 0);
    for (uint32_t i = 0; i < 16; i++)
        CHECK_EQ(rig.memory[AWAY + 48 + i], i + 1);
}

/* A spent thread gives 14 before all else, then the end, then the word. */
static void order_of_stops(void)
{
    const uint32_t bad[] = {0}, far[] = {s_shape(2, 0, 0, -4)}, end[] = {WFI};
    const uint32_t to_end[] = {b_shape(0, 0, 0, 4)};
    struct rig rig;

    rig_start(&rig);
    rig.thread.steps = IND_LIMIT_DEFAULT;
    CHECK_EQ(step(&rig, bad, 1), 14);
    CHECK_EQ(step(&rig, end, 1), 14);
    rig.thread.place = 4;
    CHECK_EQ(step(&rig, bad, 1), 14);
    rig.thread.steps = IND_LIMIT_DEFAULT - 1;
    CHECK_EQ(step(&rig, bad, 1), 12);
    rig.thread.place = 2;
    CHECK_EQ(step(&rig, end, 1), 12);
    rig.thread.place = 0;
    CHECK_EQ(step(&rig, bad, 1), 11);
    CHECK_EQ(step(&rig, far, 1), 13);
    CHECK_EQ(step(&rig, to_end, 1), 12); /* at the branch, not 14 after it */
    CHECK_EQ(rig.thread.steps, IND_LIMIT_DEFAULT - 1);
    CHECK_EQ(step(&rig, end, 1), IND_ENDED);
    CHECK_EQ(rig.thread.steps, IND_LIMIT_DEFAULT);
}

/* A thread's limit is a parameter: each run takes just so many steps. */
static void limits(void)
{
    const struct ind_window window = {NULL, 0, 0};
    uint8_t code[8];
    const struct ind_kernel kernel = {0, 2, code};

    put_word(code, MEMBAR);
    put_word(code + 4, b_shape(0, 0, 0, -4));
    for (uint32_t limit = 0; limit < 10; limit++) {
        struct ind_thread thread;
        uint32_t outside;
        ind_thread_start(&thread, 0, 0, 1, 1);
        CHECK_EQ(ind_run(&thread, &kernel, &window, limit, &outside), 14);
        CHECK_EQ(thread.steps, limit);
        CHECK_EQ(thread.place, limit % 2 * 4);
    }
}

/* Each thread adds its place in the order, and stores its four inputs. */
static void thread_inputs(void)
{
    const uint32_t words[] = {
        i_shape(LOAD, 2, 5, 0, 0), i_shape(INT_IMM, 0, 6, 5, 1),
        s_shape(2, 0, 6, 0), i_shape(INT_IMM, 1, 5, 5, 4),
        s_shape(2, 5, 1, 16), s_shape(2, 5, 2, 20), s_shape(2, 5, 3, 24),
        s_shape(2, 5, 4, 28), WFI
    };
    struct stage *stage = stage_new(128);

    pack_one(stage, words, 9);
    CHECK_EQ(serve(stage, head(0x20, 3, 1, 0), 2, 3, 0), 0);
    CHECK_EQ(stage->report.fence, 1);
    CHECK_EQ(get_word(stage->memory), 6);
    for (uint32_t i = 0; i < 6; i++) {
        const uint8_t *block = stage->memory + 16 + 16 * i;
        CHECK_EQ(get_word(block), i / 3);
        CHECK_EQ(get_word(block + 4), i % 3);
        CHECK_EQ(get_word(block + 8), 3);
        CHECK_EQ(get_word(block + 12), 2);
    }
    stage_free(stage);
}

/* Threads 0 to 3 store a mark, then thread 3 stops: no thread comes after,
 * the marks stay, the fence is raised. Registers start anew in each thread. */
static void stops_in_a_dispatch(void)
{
    const uint32_t stops[] = {
        0, b_shape(0, 0, 0, 8), s_shape(2, 0, 0, 62), MEMBAR,
        b_shape(0, 0, 0, 0)
    };
    const uint32_t want[] = {11, 12, 13, 12, 14};

    for (uint32_t i = 0; i < 5; i++) {
        const uint32_t words[] = {
            i_shape(INT_IMM, 0, 7, 7, 1), r_shape(INT, 0, 0, 6, 2, 0),
            s_shape(0, 6, 7, 0), i_shape(INT_IMM, 0, 5, 0, 3),
            b_shape(0, 2, 5, 8), WFI, stops[i]
        };
        struct stage *stage = stage_new(64);
        pack_one(stage, words, 7);
        CHECK_EQ(serve(stage, head(0x20, 3, 1, 0), 2, 8, 0), want[i]);
        CHECK_EQ(stage->report.fence, 1);
        CHECK_EQ(stage->report.irq, 1);
        CHECK_EQ(get_word(stage->memory), 0x01010101);
        for (uint32_t at = 4; at < 64; at += 4)
            CHECK_EQ(get_word(stage->memory + at), 0);
        stage_free(stage);
    }
}

/* A branch may not leave its kernel for another, nor run on into it. */
static void kernels_are_apart(void)
{
    const uint32_t numbers[] = {
        3, 0, 1, 1, 2, 0, 4, 4, MEMBAR, b_shape(0, 0, 0, -4), WFI, WFI
    };
    struct stage *stage = stage_new(0);

    for (uint32_t i = 0; i < 12; i++)
        put_word(stage->pack + 4 * i, numbers[i]);
    stage->pack_len = 48;
    CHECK_EQ(serve(stage, head(0x20, 0, 0, 0), 1, 1, 0), 12);
    CHECK_EQ(serve(stage, head(0x20, 0, 0, 0), 1, 1, 1), 12);
    CHECK_EQ(serve(stage, head(0x20, 0, 0, 0), 1, 1, 2), 14);
    CHECK_EQ(serve(stage, head(0x20, 0, 0, 0), 1, 1, 3), 10);
    stage_free(stage);
}

void test_kernels(void)
{
    instruction_list();
    register_instructions();
    immediate_instructions();
    s0_stays();
    branches_taken();
    branch_places();
    access_edges();
    loads_and_stores();
    vector_lanes();
    vector_moves();
    order_of_stops();
    limits();
    thread_inputs();
    stops_in_a_dispatch();
    kernels_are_apart();
}
