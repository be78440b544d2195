#include "cases/scene.h"

#include <string.h>

#include "cases/counts.h"
#include "cases/editions.h"
#include "cases/limits.h"
#include "device/image.h"
#include "device/parts.h"

void scene_start(struct scene *s, struct call *call, struct chance *c,
                 uint32_t odd_mille)
{
    memset(s, 0, sizeof *s);
    s->c = c;
    s->call = call;
    s->odd = odd_mille;
    s->opcode = s->style = s->len = s->full = s->waits = s->overlap = ANY;
    s->slots = 8;
    s->device.limit = IND_LIMIT_DEFAULT;
    s->device.edition = IND_EDITION_1;
    call_start(call, CALL_TURN);
}

int odd(struct scene *s)
{
    return mille(s->c, s->odd);
}

static int copies(const struct scene *s)
{
    return s->opcode == BLIT || s->opcode == COPY_BUFFER;
}

/* A copy's is short: it is filled all over. */
static uint32_t any_memory_len(struct scene *s)
{
    struct chance *c = s->c;
    uint32_t way = below(c, 28);

    if (copies(s) && way > 1)
        return s->opcode == BLIT ? 48 + 4 * below(c, 23)
                                 : 40 + 4 * below(c, 17);
    switch (way) {
    case 0: /* no multiple of 4 is asked of the memory itself */
        return below(c, 400);
    case 1:
        return 4 * below(c, 17);
    case 2:
        return 512 + 4 * below(c, 385);
    case 3:
        return 1024 + 4 * below(c, 257);
    default:
        return 80 + 4 * below(c, 30);
    }
}

void mix_memory(struct scene *s)
{
    uint8_t *bytes = s->call->pieces[PIECE_MEMORY].bytes;

    for (uint32_t i = 0; i < s->memory_len / WORD; i++)
        ind_put(bytes + (size_t)WORD * i, WORD, any_word(s->c));
}

/* Bytes all over, or at the front of zeros: few for a command that has nothing
 * to do with them. */
void draw_memory(struct scene *s, uint32_t length)
{
    struct piece *memory = &s->call->pieces[PIECE_MEMORY];
    uint32_t usual = s->opcode == BARRIER || s->opcode == SET_FB ? 8 : 24;
    uint32_t filled = mille(s->c, 970) ? usual : 400;

    s->memory_len = length;
    piece_zeros(memory, length);
    edge_bytes(s->c, memory->bytes, filled < length ? filled : length);
    if (copies(s))
        mix_memory(s);
}

/* A window inside the memory. The leading ring's is rarely small. */
void draw_window(struct scene *s, uint32_t number)
{
    struct ind_ring *ring = &s->device.rings[number];
    uint32_t words = s->memory_len / 4, first = 0, count = words;
    uint32_t way = below(s->c, 16);

    if (s->style == STYLE_LATE && mille(s->c, 150))
        way = 0;
    if (way == 0) { /* empty, at the memory's end too */
        first = below(s->c, words + 1);
        count = 0;
    } else if (way == 1 || (way < 6 && number != s->lead)) {
        first = below(s->c, words + 1);
        count = below(s->c, words - first + 1);
    } else if (way < 10) { /* all but a little at either end */
        first = below(s->c, (words < 8 ? words : 8) + 1);
        count = words - first;
        if (way < 8)
            count -= below(s->c, (count < 8 ? count : 8) + 1);
    }
    ring->window_start = 4 * first;
    ring->window_length = 4 * count;
}

struct ind_frame draw_frame(struct scene *s, uint32_t window_length)
{
    struct ind_frame frame = {0, 0, 0, 0};

    if (window_length == 0)
        return frame;
    frame.held = 1;
    frame.base = 4 * below(s->c, window_length / 4);
    frame.stride = s->opcode == BLIT ? 8 + 4 * below(s->c, 5)
                                     : 4 + 4 * below(s->c, 12);
    if (odd(s)) {
        static const uint32_t strides[4] = {
            IND_STRIDE_LEAST, 8, IND_STRIDE_MOST - 4, IND_STRIDE_MOST
        };
        frame.stride = strides[below(s->c, 4)];
        frame.base = mille(s->c, 500) ? 0 : window_length - 4;
    }
    return frame;
}

/* So many of 1,000 rings have a frame: without one a rectangle is nothing but a
 * fault. */
static uint32_t framed(const struct scene *s, uint32_t ring)
{
    return ring == s->lead && (s->opcode == FILL_RECT || s->opcode == BLIT)
        ? 1000 - s->odd : 400;
}

/* In so many of 1,000 scenes most slots in use lie at an edge. More in edition
 * 2: there a full slot keeps no command from its work. */
static uint32_t edged_scenes(const struct scene *s)
{
    if (s->waits != ANY)
        return 1000;
    return s->device.edition == IND_EDITION_2 ? 600 : 120;
}

static void draw_slots(struct scene *s)
{
    uint32_t reach = mille(s->c, 700) ? s->slots : IND_SLOTS;

    for (uint32_t n = below(s->c, 7); n > 0; n--) {
        uint32_t slot = below(s->c, reach);
        s->device.slots[slot] = mille(s->c, 800) ? below(s->c, 6)
                                                 : edge_word(s->c);
    }
    if (s->full == ANY && !mille(s->c, edged_scenes(s)))
        return;
    for (uint32_t slot = 0; slot < reach; slot++) {
        if (mille(s->c, s->full == ANY ? 850 : (uint32_t)s->full))
            s->device.slots[slot] = s->full == ANY
                ? edged_number(s->c) : UINT32_MAX - below(s->c, 2);
    }
}

/* Rings behind the one that is served are not looked at: most hold nothing. */
static void empty_later(struct scene *s)
{
    uint32_t ring = (s->lead + 1) % IND_RINGS;

    for (; ring != s->device.marker; ring = (ring + 1) % IND_RINGS) {
        if (mille(s->c, 600))
            s->heads[ring] = HEAD_NONE;
    }
}

/* Which ring will be served: the first ready one from the marker on. */
static void draw_heads(struct scene *s)
{
    static const enum head usual[10] = {
        HEAD_READY, HEAD_READY, HEAD_READY, HEAD_READY, HEAD_READY,
        HEAD_WAITING, HEAD_WAITING, HEAD_CUT, HEAD_NONE, HEAD_NONE
    };

    s->device.marker = mille(s->c, 600) ? 0 : below(s->c, IND_RINGS);
    s->lead = s->device.marker;
    for (uint32_t i = 0; i < IND_RINGS; i++)
        s->heads[i] = usual[below(s->c, 10)];
    for (uint32_t i = IND_RINGS; i > 0; i--) {
        uint32_t ring = (s->device.marker + i - 1) % IND_RINGS;
        if (s->heads[ring] == HEAD_READY)
            s->lead = ring;
    }
    if (s->heads[s->lead] == HEAD_READY)
        empty_later(s);
}

static int any_opcode(struct scene *s)
{
    static const uint8_t opcodes[7] = {
        WRITE_MEM, READ_MEM, FILL_RECT, BLIT, BARRIER, COPY_BUFFER, SET_FB
    };

    return mille(s->c, 460) ? DISPATCH_1D : opcodes[below(s->c, 7)];
}

static void draw_taken(struct scene *s)
{
    uint32_t counts[IND_COUNTS];
    uint32_t last = s->opcode == DISPATCH_1D ? IND_STEPS_SPENT : IND_BAD_FRAME;

    draw_counts(s->c, s->lead, last, counts);
    for (uint32_t i = 0; i < IND_RINGS; i++)
        s->device.taken[i] = counts[i];
    for (uint32_t i = 0; i < IND_OUTCOMES; i++)
        s->device.outcomes[i] = counts[IND_RINGS + i];
}

void draw_state(struct scene *s, uint32_t memory_len)
{
    draw_heads(s);
    if (s->opcode == ANY)
        s->opcode = any_opcode(s);
    s->device.limit = s->style == STYLE_EXACT ? exact_limit(s->c)
                    : s->style == STYLE_LATE ? late_limit(s->c)
                                             : usual_limit(s->c);
    draw_memory(s, memory_len != 0 ? memory_len : any_memory_len(s));
    s->device.edition = s->full != ANY && mille(s->c, 300)
        ? IND_EDITION_1 : any_edition(s->c);
    s->edged = s->waits != ANY ? 850 : 250;
    draw_slots(s);
    draw_taken(s);
    for (uint32_t i = 0; i < IND_RINGS; i++) {
        struct ind_ring *ring = &s->device.rings[i];
        draw_window(s, i);
        if (mille(s->c, framed(s, i)))
            ring->frame = draw_frame(s, ring->window_length);
    }
}

/* Filled at its front for a READ_MEM, and in one of four other cases: with few
 * bytes, seldom none. In two of 1,000 cases it is filled all over. */
void draw_pipe(struct scene *s)
{
    struct piece *pipe = &s->call->pieces[PIECE_PIPE];
    uint32_t length = IND_PIPE_LEAST, filled = 0;

    if (s->opcode == READ_MEM)
        filled = below(s->c, 32);
    else if (mille(s->c, 250))
        filled = below(s->c, 12);
    if (mille(s->c, 100))
        length += below(s->c, PIPE_ROOM_BESIDE + 1);
    piece_zeros(pipe, length);
    edge_bytes(s->c, pipe->bytes, mille(s->c, 2) ? length : filled);
}

void scene_done(struct scene *s)
{
    ind_image_encode(&s->device, s->call->pieces[PIECE_DEVICE].bytes);
}
