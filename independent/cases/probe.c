/* A kernel that tells of the window's content by its outcome: the replay job
 * prints no data, so nothing else would. */
#include "cases/kernels/table.h"
#include "cases/scene.h"

/* The words of the longest sum take three quarters of a job's limit. */
enum {
    LOOP_STEPS = 6, WORDS_MOST = IND_LIMIT_DEFAULT * 3 / 4 / LOOP_STEPS
};

/* s5 = 31·s5 + word over the window's words, one after another. */
static uint32_t make_sum(uint32_t *code, uint32_t words)
{
    uint32_t n = 0;

    code[n++] = word_u(ROW_LUI, 7, (4 * words + 2048) >> 12);
    code[n++] = word_i(ROW_ADDI, 7, 7, (int32_t)(4 * words & 0xFFF));
    code[n++] = word_i(ROW_ADDI, 8, 0, 31);
    code[n++] = word_b(ROW_BEQ, 6, 7, 4 * LOOP_STEPS); /* the loop's top */
    code[n++] = word_i(ROW_LW, 9, 6, 0);
    code[n++] = word_r(ROW_MUL, 5, 5, 8);
    code[n++] = word_r(ROW_ADD, 5, 5, 9);
    code[n++] = word_i(ROW_ADDI, 6, 6, 4);
    code[n++] = word_b(ROW_BEQ, 0, 0, -4 * (LOOP_STEPS - 1));
    return n;
}

/* Two bits of the sum: an end, or one of the stops 11 to 13. */
uint32_t make_probe(uint32_t *code, uint32_t window_length)
{
    uint32_t words = window_length / 4;
    uint32_t n = make_sum(code, words < WORDS_MOST ? words : WORDS_MOST);

    code[n++] = word_r(ROW_LSRI, 9, 5, 16);
    code[n++] = word_r(ROW_XOR, 5, 5, 9);
    code[n++] = word_i(ROW_ANDI, 5, 5, 3);
    code[n++] = word_b(ROW_BEQ, 5, 0, 4 * 7);
    code[n++] = word_i(ROW_ADDI, 5, 5, -1);
    code[n++] = word_b(ROW_BEQ, 5, 0, 4 * 4);
    code[n++] = word_i(ROW_ADDI, 5, 5, -1);
    code[n++] = word_b(ROW_BEQ, 5, 0, -4096);
    code[n++] = word_i(ROW_LW, 5, 0, -4);
    code[n++] = 0;
    code[n++] = table[ROW_WFI].match;
    return n;
}
