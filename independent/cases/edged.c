/* Turns at an edge of what is allowed. */
#include <string.h>

#include "cases/commands.h"
#include "cases/draw.h"
#include "cases/editions.h"
#include "cases/kernels/table.h"
#include "cases/words.h"
#include "device/image.h"

enum {
    HEADER = IND_HEADER_BYTES,
    FRAME_BYTES = WORD * (IND_IMAGE_FORMAT - IND_IMAGE_BASE + 1)
};

/* Other numbers than 0 and 1 for held, and numbers of a frame not held: a
 * served turn writes them anew. */
static void roughen_frames(struct call *call, struct chance *c)
{
    for (uint32_t ring = 0; ring < IND_RINGS; ring++) {
        uint8_t *held = image_word(call, ring, IND_IMAGE_HELD);
        if (mille(c, 500))
            continue;
        if (get_word(held) != 0)
            put_word(held, mille(c, 500) ? 7 : 0x80000000u);
        else
            edge_bytes(c, image_word(call, ring, IND_IMAGE_BASE), FRAME_BYTES);
    }
}

/* Any other number than 1 and 2 for the edition: it counts as 1, and a served
 * turn writes that. */
static void roughen_edition(struct call *call, struct chance *c)
{
    put_word(image_word(call, 0, IND_IMAGE_EDITION), odd_edition(c));
}

/* Zeros to the end of a ring as long as it may be: a header of them is a
 * command of an unknown opcode, fewer are none. */
static void far_cursor(struct call *call, struct chance *c)
{
    static const uint32_t left[5] = {
        0, HEADER - 1, HEADER, HEADER + 1, 2 * HEADER
    };
    uint32_t ring = below(c, IND_RINGS);

    piece_zeros(&call->pieces[PIECE_RING + ring], IND_RING_MOST);
    put_word(image_word(call, ring, IND_IMAGE_CURSOR),
             IND_RING_MOST - left[below(c, 5)]);
}

/* A cursor that is off by a little. */
static void near_cursor(struct call *call, struct chance *c)
{
    uint32_t ring = below(c, IND_RINGS);
    uint32_t length = (uint32_t)call->pieces[PIECE_RING + ring].length;
    uint32_t back = mille(c, 500) ? below(c, HEADER + WORD + 1) : HEADER;

    put_word(image_word(call, ring, IND_IMAGE_CURSOR),
             length - (back < length ? back : length));
}

static void move_cursor(struct call *call, struct chance *c)
{
    if (mille(c, 200))
        far_cursor(call, c);
    else
        near_cursor(call, c);
}

/* All the memory there may be, mostly zeros; windows anywhere in it. */
static void draw_large(struct scene *s)
{
    static const uint8_t opcodes[4] = { READ_MEM, BARRIER, SET_FB, FILL_RECT };

    s->opcode = opcodes[below(s->c, 4)];
    draw_turn(s, IND_MEMORY_MOST - (mille(s->c, 700) ? 0 : below(s->c, 9)));
}

/* Moves a piece's bytes from `at` on by so many, and zeros to where they
 * stood. */
static void move_up(struct piece *piece, size_t at, size_t by)
{
    size_t count = piece->length - at;

    piece_end(piece, piece->length + by);
    memmove(piece->bytes + at + by, piece->bytes + at, count);
    memset(piece->bytes + at, 0, by);
}

/* What a ring holds at the end of one as long as it may be. */
static void far_command(struct call *call, uint32_t number)
{
    struct piece *ring = &call->pieces[PIECE_RING + number];
    uint8_t *cursor = image_word(call, number, IND_IMAGE_CURSOR);
    uint32_t up = IND_RING_MOST - (uint32_t)ring->length;

    move_up(ring, 0, up);
    put_word(cursor, get_word(cursor) + up);
}

/* A sound pack's code at the end of as many words as there may be. */
static void far_code(struct call *call)
{
    struct piece *pack = &call->pieces[PIECE_PACK];
    uint8_t *pair = pack->bytes + WORD;
    uint8_t *end = pair + (size_t)IND_PAIR_BYTES * get_word(pack->bytes);
    uint32_t up = IND_CODE_MOST - get_word(end);

    for (; pair < end; pair += IND_PAIR_BYTES)
        put_word(pair, get_word(pair) + up);
    put_word(end, IND_CODE_MOST);
    move_up(pack, (size_t)(end - pack->bytes) + WORD, (size_t)WORD * up);
}

/* One kernel that is all the code there may be. It hops to its last words, and
 * ends or stops with the last or behind it. */
static void far_kernel(struct call *call, struct chance *c)
{
    enum { HOP = 1023, LAST_HOP = IND_CODE_MOST / HOP * HOP }; /* words */
    const uint32_t ends[5] = {
        table[ROW_MEMBAR].match, table[ROW_WFI].match, 0,
        word_s(ROW_SW, 0, 0, -4), word_b(ROW_BEQ, 0, 0, 4)
    };
    struct piece *pack = &call->pieces[PIECE_PACK];
    uint8_t *code = pack->bytes + IND_PACK_LEAST + IND_PAIR_BYTES;

    piece_zeros(pack, IND_PACK_LEAST + IND_PAIR_BYTES + WORD * IND_CODE_MOST);
    put_word(pack->bytes, 1);
    put_word(pack->bytes + 2 * WORD, IND_CODE_MOST);
    put_word(pack->bytes + 3 * WORD, IND_CODE_MOST);
    for (int i = 0; i < LAST_HOP; i += HOP)
        put_word(code + WORD * i, word_b(ROW_BEQ, 0, 0, WORD * HOP));
    for (int i = LAST_HOP; i < IND_CODE_MOST - 1; i++)
        put_word(code + WORD * i, table[ROW_MEMBAR].match);
    put_word(code + WORD * (IND_CODE_MOST - 1), ends[below(c, 5)]);
}

/* A payload, any command, or kernels behind as much as there may be; or a
 * kernel that is as much. */
static void draw_far(struct scene *s)
{
    uint32_t x = below(s->c, 1000);
    int long_kernel = x >= 700 && x < 900;

    s->odd = 40;
    s->opcode = x < 400 ? WRITE_MEM : x < 900 ? DISPATCH_1D : ANY;
    draw_turn(s, 0);
    if (long_kernel)
        far_kernel(s->call, s->c);
    else if (s->opcode == DISPATCH_1D)
        far_code(s->call);
    else
        far_command(s->call, s->lead);
}

enum theme {
    THEME_STEPS, THEME_STOPS, THEME_LATE, THEME_SLOTS, THEME_LEN,
    THEME_TRANSFERS, THEME_FRAMES, THEME_RECTANGLES, THEME_COPIES, THEME_WAITS,
    THEME_NONE
};

static enum theme any_theme(struct chance *c)
{
    static const uint8_t shares[THEME_NONE] = {
        11, 7, 35, 12, 3, 3, 5, 7, 10, 7
    };
    uint32_t x = below(c, 100);
    int theme = 0;

    while (theme < THEME_NONE && x >= shares[theme])
        x -= shares[theme++];
    return (enum theme)theme;
}

static const uint8_t transfers[3] = { WRITE_MEM, READ_MEM, COPY_BUFFER };

/* A kernel that takes the last steps there are, or stops, at once or late. */
static void wish_kernel(struct scene *s, enum theme theme)
{
    s->opcode = DISPATCH_1D;
    if (theme == THEME_STEPS || theme == THEME_LATE) {
        s->style = theme == THEME_STEPS ? STYLE_EXACT : STYLE_LATE;
        s->odd = theme == THEME_STEPS ? 50 : 30;
        return;
    }
    s->style = mille(s->c, 850) ? STYLE_MISS
             : mille(s->c, 500) ? STYLE_NEAR : STYLE_NOISE;
    s->odd = 100;
}

/* The most words, which fit or just don't, or none; gives the memory's length,
 * or 0 for any. */
static uint32_t wish_len(struct scene *s)
{
    s->opcode = transfers[below(s->c, 3)];
    s->len = mille(s->c, 500) ? IND_LEN_MOST : 0;
    return s->len != 0 ? WORD * (IND_LEN_MOST - 1 + below(s->c, 15)) : 0;
}

/* A copy whose sides overlap, now and then of many words; gives the same. */
static uint32_t wish_copy(struct scene *s)
{
    s->opcode = mille(s->c, 700) ? BLIT : COPY_BUFFER;
    s->overlap = 950;
    s->odd = 30;
    if (s->opcode == BLIT || !mille(s->c, 150))
        return 0;
    s->len = 65 + (int)below(s->c, 40);
    return WORD * ((uint32_t)s->len + 8 + below(s->c, 30));
}

/* Sets wishes by a theme; gives the memory's length, or 0 for any. */
static uint32_t wish(struct scene *s)
{
    enum theme theme = any_theme(s->c);

    switch (theme) {
    case THEME_STEPS:
    case THEME_STOPS:
    case THEME_LATE:
        wish_kernel(s, theme);
        return 0;
    case THEME_SLOTS: /* full ones */
        s->opcode = mille(s->c, 600) ? transfers[below(s->c, 3)] : ANY;
        s->full = 900;
        s->odd = mille(s->c, 300) ? 100 : 600;
        return 0;
    case THEME_LEN:
        return wish_len(s);
    case THEME_TRANSFERS:
        s->opcode = transfers[below(s->c, 3)];
        return 0;
    case THEME_FRAMES:
        s->opcode = SET_FB;
        s->odd = 400;
        return 0;
    case THEME_RECTANGLES:
        s->opcode = mille(s->c, 500) ? FILL_RECT : BLIT;
        s->odd = 250;
        return 0;
    case THEME_COPIES:
        return wish_copy(s);
    case THEME_WAITS: /* for targets at the edges of either edition */
        s->opcode = mille(s->c, 700) ? BARRIER : ANY;
        s->waits = 850;
        s->odd = 50;
        return 0;
    default:
        return 0;
    }
}

void draw_edged(struct call *call, struct chance *c)
{
    uint32_t way = below(c, 100);
    struct scene s;

    scene_start(&s, call, c, 330);
    if (way < 1)
        draw_large(&s);
    else if (way < 2)
        draw_far(&s);
    else
        draw_turn(&s, wish(&s));
    if (mille(c, 250))
        roughen_frames(call, c);
    if (mille(c, s.full != ANY || s.waits != ANY ? 350 : 60))
        roughen_edition(call, c); /* most where the edition shows */
    if (way >= 2 && way < 12)
        move_cursor(call, c);
    else if (way >= 12 && way < 43)
        spoil_call(call, c);
}
