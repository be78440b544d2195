#include "cases/lanes.h"

#include "cases/lines.h"

enum { TITLE_MOST = 80 };

static const char *const row_names[LANE_ROWS] = {
    "VADD.I8", "VADD.I16", "VSUB.I8", "VSUB.I16"
};

/* What becomes of a lane: as a sum, as a difference. */
static const char *const out_names[2][2] = {
    { "carries nothing", "carries" }, { "borrows nothing", "borrows" }
};

static const char *const top_names[TOPS] = {
    "0 and 0", "0 and 0, and one from below", "0 and 1",
    "0 and 1, and one from below", "1 and 0", "1 and 0, and one from below",
    "1 and 1", "1 and 1, and one from below"
};

static struct {
    uint64_t out[LANE_ROWS][2][LANES_MOST], top[LANE_ROWS][TOPS];
} count;

static int subtracts(uint32_t row)
{
    return row >= LANE_ROWS / 2;
}

/* Whether x and y, below `all`, carry or borrow one of it. */
static int passes(uint32_t row, uint32_t x, uint32_t y, uint32_t all)
{
    return subtracts(row) ? x < y : x + y >= all;
}

static void see_word(struct lanes_seen *seen, uint32_t row, uint32_t size,
                     uint32_t a, uint32_t b)
{
    uint32_t width = 8 * size, all = 1u << width, half = all / 2;

    for (uint32_t lane = 0; lane < WORD / size; lane++) {
        uint32_t x = (a >> width * lane) % all, y = (b >> width * lane) % all;
        int from_below = passes(row, x % half, y % half, half);
        seen->out[row][passes(row, x, y, all)][lane] = 1;
        seen->top[row][4 * (x / half) + 2 * (y / half)
                       + (uint32_t)from_below] = 1;
    }
}

void lanes_step(struct lanes_seen *seen, const struct ind_thread *before,
                uint32_t word)
{
    struct ind_instruction in = ind_decode(word);

    if (in.kind != KIND_VECTOR || in.size == WORD
        || (in.op != OP_ADD && in.op != OP_SUB))
        return;
    uint32_t row = (in.op == OP_SUB ? LANE_ROWS / 2 : 0) + in.size - 1;
    for (uint32_t i = 0; i < IND_VECTOR_WORDS; i++)
        see_word(seen, row, in.size, before->vector[in.rs1][i],
                 before->vector[in.rs2][i]);
}

void lanes_ran(const struct lanes_seen *seen)
{
    for (int row = 0; row < LANE_ROWS; row++) {
        for (int i = 0; i < LANES_MOST; i++) {
            count.out[row][0][i] += seen->out[row][0][i];
            count.out[row][1][i] += seen->out[row][1][i];
        }
        for (int i = 0; i < TOPS; i++)
            count.top[row][i] += seen->top[row][i];
    }
}

/* ---- the table ---- */

/* Row 1 of two has lanes of 2 bytes. */
static int out_lines(FILE *out, uint32_t row, int passed)
{
    char text[TITLE_MOST];

    snprintf(text, sizeof text, "calls in which a lane of %s %s",
             row_names[row], out_names[subtracts(row)][passed]);
    title(out, text);
    return lines(out, "lane %u", 0, count.out[row][passed],
                 row % 2 == 0 ? LANES_MOST : LANES_MOST / 2);
}

static int top_lines(FILE *out, uint32_t row)
{
    char text[TITLE_MOST];
    int missing = 0;

    snprintf(text, sizeof text, "calls with a lane of %s, by its top bits",
             row_names[row]);
    title(out, text);
    for (int i = 0; i < TOPS; i++)
        missing += line(out, top_names[i], count.top[row][i]);
    return missing;
}

int lanes_lines(FILE *out)
{
    int missing = 0;

    for (uint32_t row = 0; row < LANE_ROWS; row++) {
        missing += out_lines(out, row, 1);
        missing += out_lines(out, row, 0);
        missing += top_lines(out, row);
    }
    return missing;
}
