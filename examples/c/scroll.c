/* A console of four lines of eight characters, a pixel for each, scrolled by copies within it: down by a line, right by a
 * column, and then a part of one line moved on. The line and the column that it leaves keep what they held: clear them by
 * FILL_RECT. Were words always copied from the first on, the first line would be there four times, and then the first
 * character of a line in all its columns. */
#include <stdio.h>
#include <string.h>
#include "fioravispa.h"

enum { LINES = 4, COLUMNS = 8, STRIDE = 4 * COLUMNS, COMMANDS = 4 };

static uint8_t image[FV_IMAGE_BYTES], pack[FV_PACK_LEAST], pipe[FV_PIPE_LEAST];
static uint8_t memory[LINES * STRIDE], ring[COMMANDS * FV_HEADER_BYTES];

/* The console after each turn. */
static const char *const expected[COMMANDS][LINES] = {
    {"one.....", "two.....", "three...", "four...."},  /* SET_FB: as it was drawn */
    {"one.....", "one.....", "two.....", "three..."},  /* BLIT of three lines, one line down */
    {"oone....", "oone....", "ttwo....", "tthree.."},  /* BLIT of seven columns, one column to the right */
    {"oone....", "oone....", "ttwo....", "tttthree"},  /* COPY_BUFFER of six words, two words on */
};

static void draw(const char *const lines[LINES])
{
    for (uint32_t y = 0; y < LINES; y++)
        for (uint32_t x = 0; x < COLUMNS; x++)
            fv_put_word(memory + y * STRIDE + 4 * x, (uint8_t)lines[y][x]);
}

/* Prints the console and gives whether it is as expected. */
static int shows(const char *const lines[LINES])
{
    int same = 1;

    for (uint32_t y = 0; y < LINES; y++) {
        char line[COLUMNS + 1] = "";
        for (uint32_t x = 0; x < COLUMNS; x++)
            line[x] = (char)fv_word(memory, y * COLUMNS + x);
        puts(line);
        same &= strcmp(line, lines[y]) == 0;
    }
    return same;
}

int main(void)
{
    const struct fv_window windows[FV_RINGS] = {{0, sizeof memory}};
    uint8_t bytes[FV_WINDOWS_BYTES];
    struct fv_lent lent = {
        .memory = memory, .memory_length = sizeof memory,
        .rings = {{ring, 0, sizeof ring}},
        .pack = pack, .pack_length = fv_put_pack(pack, sizeof pack, NULL, 0),
        .pipe = pipe, .pipe_length = sizeof pipe,
    };

    fv_put_windows(bytes, windows);
    if (fv_fresh(image, sizeof image, bytes, sizeof bytes, sizeof memory) != FV_MADE)
        return 1;
    draw(expected[0]);
    fv_set_fb(&lent.rings[0], fv_none(), 0, STRIDE, 0);
    fv_blit(&lent.rings[0], fv_none(), STRIDE, 0, COLUMNS, LINES - 1);
    fv_blit(&lent.rings[0], fv_none(), 4, 0, COLUMNS - 1, LINES);
    fv_copy_buffer(&lent.rings[0], fv_none(), 3 * STRIDE + 8, 3 * STRIDE, COLUMNS - 2);
    for (uint32_t i = 0; i < COMMANDS; i++) {
        struct fv_report report = fv_turn_by(fv_turn, image, &lent);
        printf("ring %u outcome %u\n", report.ring, report.outcome);
        if (report.status != FV_SERVED || report.outcome != FV_OUTCOME_DONE || !shows(expected[i]))
            return 1;
    }
    return 0;
}
