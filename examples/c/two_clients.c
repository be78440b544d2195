/* A driver's test: two clients share a frame and keep out of each other's way by
 * fences. A (ring 0) paints a tile; B (ring 1) waits for A's fence and copies
 * it; A waits for B's fence and lets a kernel draw a gradient below; B waits
 * again and reads a row back. Every pixel is checked, before and after. At the end
 * it tells how many commands each had taken, and which outcomes occurred. */
#include <stdio.h>
#include <stdlib.h>
#include <string.h>

#include "fioravispa.h"
#include "fioravispa_code.h"
#include "picture.h"

enum {
    WIDTH = 64,
    HEIGHT = 48,
    STRIDE = 4 * WIDTH,
    FRAME_BYTES = STRIDE * HEIGHT,
    TILE = 16,
    TILE_X = 4,
    TILE_Y = 4,
    COPY_X = 24,        /* where B blits the tile to */
    LINE_FROM = 10,     /* the row that B copies */
    LINE_TO = 22,
    SHADE_Y = 24,       /* the kernel draws from this row on */
    SHADE_ROWS = HEIGHT - SHADE_Y
};

enum { A = 0, B = 1 };
enum { PAINTED = 0, COPIED = 1, SHADED = 2 };    /* slots */

#define NAVY 0x00102040u
#define RED 0x00C03028u
#define YELLOW 0x00F0D020u
#define WHITE 0x00FFFFFFu

static uint8_t memory[FRAME_BYTES], pipe_words[FV_PIPE_LEAST], image[FV_IMAGE_BYTES];
static uint8_t ring_bytes[FV_RINGS][1024], pack[FV_PACK_MOST];
static struct fv_lent lent;
static unsigned turns, taken[FV_RINGS];          /* as the reports tell */

static void stop(const char *why)
{
    fprintf(stderr, "two_clients: %s\n", why);
    exit(1);
}

static void queued(int appended)
{
    if (!appended)
        stop("a ring has no room");
}

static uint32_t pixel_at(uint32_t x, uint32_t y)
{
    return y * STRIDE + 4 * x;
}

/* ---- what is asked of the device ---- */

static size_t put_shader(void)
{
    const uint32_t words[] = {
        fv_i(FV_ADDI, 5, 1, SHADE_Y),   /* s5 = row */
        fv_i(FV_SHLI, 5, 5, 8),         /* times the stride */
        fv_i(FV_SHLI, 6, 2, 2),         /* s6 = 4 times the column */
        fv_r(FV_ADD, 5, 5, 6),          /* s5 = where the pixel lies */
        fv_i(FV_SHLI, 7, 6, 16),        /* red grows to the right */
        fv_i(FV_ADDI, 8, 0, 10),
        fv_r(FV_MUL, 8, 8, 1),          /* green grows downward */
        fv_i(FV_SHLI, 8, 8, 8),
        fv_i(FV_XORI, 9, 6, 252),       /* blue falls to the right */
        fv_r(FV_OR, 7, 7, 8),
        fv_r(FV_OR, 7, 7, 9),
        fv_s(FV_SW, 7, 5, 0),
        FV_WFI,
    };
    const struct fv_kernel kernel = {words, sizeof words / sizeof *words};
    return fv_put_pack(pack, sizeof pack, &kernel, 1);
}

static void make_device(void)
{
    const struct fv_window windows[FV_RINGS] = {{0, FRAME_BYTES}, {0, FRAME_BYTES}, {0, 0}, {0, 0}};
    uint8_t bytes[FV_WINDOWS_BYTES];

    fv_put_windows(bytes, windows);
    if (fv_fresh(image, sizeof image, bytes, sizeof bytes, sizeof memory) != FV_MADE)
        stop("no fresh device");
    for (size_t q = 0; q < FV_RINGS; q++)
        lent.rings[q] = (struct fv_ring){ring_bytes[q], 0, sizeof ring_bytes[q]};
    lent.memory = memory;
    lent.memory_length = sizeof memory;
    lent.pack = pack;
    lent.pack_length = put_shader();
    lent.pipe = pipe_words;
    lent.pipe_length = sizeof pipe_words;
}

static void queue_painting(struct fv_ring *a)
{
    uint32_t line[8];

    for (size_t i = 0; i < 8; i++)
        line[i] = WHITE;
    queued(fv_set_fb(a, fv_none(), 0, STRIDE, 0));
    queued(fv_fill_rect(a, fv_none(), 0, WIDTH, HEIGHT, NAVY));
    queued(fv_fill_rect(a, fv_none(), pixel_at(TILE_X, TILE_Y), TILE, TILE, RED));
    queued(fv_fill_rect(a, fv_none(), pixel_at(TILE_X + 2, TILE_Y + 2), 6, 6, YELLOW));
    queued(fv_write_mem(a, fv_none(), pixel_at(TILE_X + 6, TILE_Y + 12), line, 8));
}

static void queue_copies(struct fv_ring *b)
{
    queued(fv_set_fb(b, fv_wait(PAINTED, 1), 0, STRIDE, 0));
    queued(fv_blit(b, fv_none(), pixel_at(COPY_X, TILE_Y), pixel_at(TILE_X, TILE_Y), TILE, TILE));
    queued(fv_copy_buffer(b, fv_emit(COPIED), pixel_at(0, LINE_TO), pixel_at(0, LINE_FROM), WIDTH));
    queued(fv_read_mem(b, fv_with_irq(fv_wait(SHADED, 1)), pixel_at(0, SHADE_Y), WIDTH));
}

static void queue_shading(struct fv_ring *a)
{
    queued(fv_barrier(a, fv_emit(PAINTED)));
    queued(fv_barrier(a, fv_wait(COPIED, 1)));
    queued(fv_dispatch_1d(a, fv_emit(SHADED), SHADE_ROWS, WIDTH, 0));
}

/* Turns until no ring is ready, a line for each. */
static void run_to_idle(void)
{
    for (;;) {
        struct fv_report report = fv_turn_by(fv_turn, image, &lent);
        if (report.status == FV_IDLE)
            break;
        if (report.status != FV_SERVED)
            stop("a turn was refused");
        printf("turn %2u: ring %u, outcome %u, fence %u, words read %u, irq %u\n", ++turns, report.ring,
               report.outcome, report.fence, report.words_read, report.irq);
        if (report.ring >= FV_RINGS || report.outcome != FV_OUTCOME_DONE)
            stop("a command was not done");
        taken[report.ring]++;
    }
    printf("idle after turn %u\n", turns);
}

/* ---- what the frame must be, worked out without the device ---- */

static uint32_t tile_color(uint32_t x, uint32_t y)
{
    if (x >= 2 && x < 8 && y >= 2 && y < 8)
        return YELLOW;
    return y == 12 && x >= 6 && x < 14 ? WHITE : RED;
}

static uint32_t painted_color(uint32_t x, uint32_t y)
{
    int inside = x - TILE_X < TILE && y - TILE_Y < TILE;
    return inside ? tile_color(x - TILE_X, y - TILE_Y) : NAVY;
}

static uint32_t final_color(uint32_t x, uint32_t y)
{
    if (y >= SHADE_Y)
        return 4 * x << 16 | 10 * (y - SHADE_Y) << 8 | (252 - 4 * x);
    if (y == LINE_TO)
        y = LINE_FROM;
    if (x - COPY_X < TILE && y - TILE_Y < TILE)
        return tile_color(x - COPY_X, y - TILE_Y);
    return painted_color(x, y);
}

static void check_frame(uint32_t color(uint32_t, uint32_t), const char *name)
{
    unsigned wrong = 0;

    for (uint32_t i = 0; i < WIDTH * HEIGHT; i++) {
        uint32_t x = i % WIDTH, y = i / WIDTH, got = fv_word(memory, i), want = color(x, y);
        if (got != want && wrong++ < 10)
            printf("pixel (%u, %u) is %06X, not %06X\n", x, y, got, want);
    }
    if (wrong) {
        printf("%u pixels of %s are wrong\n", wrong, name);
        exit(1);
    }
}

static void check_read_back(void)
{
    if (memcmp(pipe_words, memory + pixel_at(0, SHADE_Y), STRIDE) != 0)
        stop("the row that B read is not the frame's");
    if (fv_image_slot(image, SHADED) != 1 || fv_image_cursor(image, A) != lent.rings[A].length)
        stop("the image does not tell what was done");
}

/* What the device counted, which must be what its reports told. */
static void tell_counts(void)
{
    const uint32_t of_a = fv_image_commands(image, A), of_b = fv_image_commands(image, B);

    printf("client A (ring %u): %u commands taken\n", A, of_a);
    printf("client B (ring %u): %u commands taken\n", B, of_b);
    for (uint32_t outcome = 0; outcome < FV_OUTCOMES; outcome++)
        if (fv_image_outcomes(image, outcome) != 0)
            printf("outcome %u: %u commands\n", outcome, fv_image_outcomes(image, outcome));
    if (of_a != taken[A] || of_b != taken[B] || fv_image_outcomes(image, FV_OUTCOME_DONE) != turns)
        stop("the counts are not what the reports told");
}

static void save(const char *folder, const char *name)
{
    char path[4096];

    snprintf(path, sizeof path, "%s/%s", folder, name);
    if (!picture_write(path, memory, WIDTH, HEIGHT))
        stop("a picture could not be written");
}

int main(int count, char **words)
{
    if (count != 2)
        stop("usage: two_clients FOLDER");
    make_device();
    queue_painting(&lent.rings[A]);
    queue_copies(&lent.rings[B]);
    run_to_idle(); /* B waits: A has not said that it is done */
    save(words[1], "before.ppm");
    check_frame(painted_color, "before.ppm");

    queue_shading(&lent.rings[A]);
    run_to_idle();
    save(words[1], "after.ppm");
    check_frame(final_color, "after.ppm");
    check_read_back();
    puts("the frame is right");
    tell_counts();
    return 0;
}
