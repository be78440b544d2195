#include "cases/commands.h"

#include "cases/editions.h"

static uint32_t lesser(uint32_t a, uint32_t b)
{
    return a < b ? a : b;
}

/* ---- arguments ---- */

/* Where so many bytes may start in a window: inside, or at one of its edges. */
static uint32_t address_for(struct scene *s, uint32_t length, uint64_t bytes)
{
    uint32_t last = length - (uint32_t)bytes; /* wraps where they don't fit */

    if (s->full != ANY && mille(s->c, 250)) { /* which of 5 and 6 is told? */
        uint32_t word = 4 * below(s->c, length / 4 + 1);
        return word + 1 + below(s->c, 3);
    }
    if (odd(s)) {
        switch (below(s->c, 10)) {
        case 0:
        case 1:
            return last;
        case 2:
        case 3:
            return last + 4;
        case 4:
            return last + 1 + below(s->c, 3);
        case 5:
            return length;
        case 6:
            return length + 4;
        case 7:
            return 0 - 4 * below(s->c, 5);
        case 8:
            return below(s->c, length + 1);
        default:
            return edge_word(s->c);
        }
    }
    return 4 * below(s->c, (bytes > length ? length : last) / 4 + 1);
}

/* A copy's words are rarely all there is room for, or one. */
static uint32_t len_for(struct scene *s, uint32_t length, int copy)
{
    uint32_t words = lesser(length / WORD, IND_LEN_MOST);

    if (s->len != ANY)
        return (uint32_t)s->len;
    if (odd(s)) {
        switch (below(s->c, 6)) {
        case 0:
            return 0;
        case 1:
            return IND_LEN_MOST;
        case 2:
            return words;
        case 3:
            return lesser(words + 1, IND_LEN_MOST);
        default:
            return below(s->c, 20);
        }
    }
    if (copy && words > 3 && mille(s->c, 900))
        return 2 + below(s->c, lesser(words / 2, 8));
    return lesser(words, 1 + below(s->c, 10));
}

/* A width and a height that fit, or miss by one. A BLIT's are rarely all there
 * is room for: its rectangle is to move. */
static struct ind_size size_for(struct scene *s, const struct ind_ring *ring,
                                int blit)
{
    static const uint32_t high[4] = { 0, 0, 1, IND_EXTENT_MOST };
    uint32_t stride = ring->frame.held != 0 ? ring->frame.stride : 16;
    struct ind_size size = { 1 + below(s->c, lesser(stride / 4, 6)), 1 };

    if (blit && mille(s->c, 300))
        size.width = lesser(stride / 4, 6);
    if (odd(s))
        size.width = below(s->c, 2) == 0 ? high[below(s->c, 4)]
                                         : stride / 4 + below(s->c, 2);
    uint32_t used = lesser(4 * size.width, ring->window_length);
    uint32_t rows = (ring->window_length - used) / stride + 1;
    size.height = 1 + below(s->c, lesser(rows, 6));
    if (blit && rows > 2 && mille(s->c, 800))
        size.height = 2 + below(s->c, lesser(rows / 2, 5));
    if (odd(s))
        size.height = below(s->c, 2) == 0 ? high[below(s->c, 4)]
                                          : rows + below(s->c, 2);
    size.height = lesser(size.height, IND_EXTENT_MOST);
    if (odd(s) && mille(s->c, 150)) { /* too wide, but empty */
        size.width = stride / 4 + 1;
        size.height = 0;
    }
    return size;
}

static uint32_t side_for(struct scene *s, uint32_t most)
{
    static const uint32_t sides[8] = {
        0, 1, IND_SIDE_MOST, IND_SIDE_MOST + 1, IND_SIDE_MOST - 1, 2,
        IND_SIDE_MOST + 2, 0xFFFFFFFF
    };

    if (most == IND_SIDE_MOST && mille(s->c, 300))
        return most;
    if (odd(s)) {
        uint32_t side = sides[below(s->c, 8)];
        if (side == 0 || side > IND_SIDE_MOST || side <= most)
            return side;
    }
    return 1 + below(s->c, most);
}

/* ---- the two sides of a copy ---- */

/* Bytes from one side of a COPY_BUFFER to the other: they are one, overlap or
 * touch. */
static uint32_t buffer_apart(struct scene *s, uint32_t len)
{
    switch (below(s->c, 12)) {
    case 0:
        return 0;
    case 1:
    case 2:
        return WORD;
    case 3:
    case 4: /* they touch, or share one word */
        return WORD * (len - lesser(len, below(s->c, 2)));
    default:
        return len < 2 ? 0 : WORD * (1 + below(s->c, len - 1));
    }
}

/* The same of a BLIT: by part of a row, by rows, by both, by half a stride more
 * than rows, or by any number of words. */
static uint32_t rectangle_apart(struct scene *s, struct ind_size size,
                                uint32_t stride)
{
    uint32_t part = size.width < 2 ? 0 : 1 + below(s->c, size.width - 1);
    uint32_t rows = size.height < 2 ? 0 : 1 + below(s->c, size.height - 1);
    uint32_t words = stride / WORD;

    switch (below(s->c, 12)) {
    case 0:
        return 0;
    case 1:
    case 2:
        return WORD * part;
    case 3:
        return stride * rows;
    case 4: /* rows between or across the other side's */
        return stride * (rows - (rows != 0)) + WORD * (words / 2);
    case 5:
        return WORD * below(s->c, words * lesser(size.height, 16) + 1);
    case 6:
    case 7:
        return stride * rows + WORD * part;
    default:
        return rows == 0 ? WORD * part : stride * rows - WORD * part;
    }
}

/* Close to each other, as far as the window has room for that, or anywhere. */
static void lay_sides(struct scene *s, uint32_t length, uint64_t bytes,
                      uint32_t apart, struct ind_command *command)
{
    uint32_t share = s->overlap == ANY ? 700 : (uint32_t)s->overlap;

    if (odd(s) || !mille(s->c, share)) {
        command->arg0 = address_for(s, length, bytes);
        command->arg1 = address_for(s, length, bytes);
        return;
    }
    if (bytes <= length)
        apart = lesser(apart, length - (uint32_t)bytes);
    uint32_t lower = address_for(s, length, bytes + apart);
    int higher = mille(s->c, 500);
    command->arg0 = lower + (higher ? apart : 0);
    command->arg1 = lower + (higher ? 0 : apart);
}

/* ---- the work of each opcode ---- */

static void ask_transfer(struct scene *s, const struct ind_ring *ring,
                         struct ind_command *command)
{
    uint32_t length = ring->window_length;
    uint64_t bytes;

    command->len = len_for(s, length, command->opcode == COPY_BUFFER);
    bytes = (uint64_t)WORD * command->len;
    if (command->opcode == COPY_BUFFER) {
        uint32_t apart = buffer_apart(s, command->len);
        lay_sides(s, length, bytes, apart, command);
    } else {
        command->arg0 = address_for(s, length, bytes);
        command->arg1 = mille(s->c, 100) ? any_word(s->c) : 0;
    }
    command->arg2 = mille(s->c, 100) ? any_word(s->c) : 0;
}

static void ask_rectangle(struct scene *s, const struct ind_ring *ring,
                          struct ind_command *command)
{
    uint32_t length = ring->window_length;
    uint32_t stride = ring->frame.held != 0 ? ring->frame.stride : 16;
    struct ind_size size = size_for(s, ring, command->opcode == BLIT);
    uint32_t packed = size.width | size.height << 16;
    uint64_t bytes = size.height == 0 ? 0
        : (uint64_t)(size.height - 1) * stride + 4 * size.width;

    if (command->opcode == FILL_RECT) {
        command->arg0 = address_for(s, length, bytes);
        command->arg1 = packed;
        command->arg2 = edge_word(s->c);
        return;
    }
    uint32_t apart = rectangle_apart(s, size, stride);
    lay_sides(s, length, bytes, apart, command);
    command->arg2 = packed;
    if (ring->frame.held == 0 && mille(s->c, 200)) /* which of 6 and 7? */
        command->arg0 += 1 + below(s->c, 3);
}

/* The kernel made for this ring, with many threads only if it is short. */
static void ask_dispatch(struct scene *s, uint32_t ring,
                         struct ind_command *command)
{
    uint32_t own = s->own == 0 ? 0 : ring % s->own;
    uint32_t most = s->own == 0 ? 1 : s->threads[own];

    command->arg0 = side_for(s, most);
    command->arg1 = side_for(s, command->arg0 > 4 && most > 4
                             && !mille(s->c, 60) ? 4 : most);
    command->arg2 = s->kernels - s->probes - s->own + own;
    if (odd(s)) {
        uint32_t beyond = s->kernels + below(s->c, 2);
        command->arg2 = mille(s->c, 300) ? below(s->c, s->kernels + 1)
                      : mille(s->c, 700) ? beyond : edge_word(s->c);
    }
}

static void ask_frame(struct scene *s, const struct ind_ring *ring,
                      struct ind_command *command)
{
    static const uint32_t strides[8] = {
        0, 2, 6, IND_STRIDE_LEAST, IND_STRIDE_MOST - 4, IND_STRIDE_MOST,
        IND_STRIDE_MOST + 4, 0x80000004
    };
    struct ind_frame frame = draw_frame(s, ring->window_length);

    command->arg0 = frame.base;
    command->arg1 = frame.stride;
    command->arg2 = 0;
    if (odd(s))
        command->arg0 = address_for(s, ring->window_length, 4);
    if (odd(s))
        command->arg1 = strides[below(s->c, 8)];
    if (odd(s))
        command->arg2 = mille(s->c, 500) ? 1 : edge_word(s->c);
}

static void ask_work(struct scene *s, uint32_t number,
                     struct ind_command *command)
{
    const struct ind_ring *ring = &s->device.rings[number];

    switch (command->opcode) {
    case WRITE_MEM:
    case READ_MEM:
    case COPY_BUFFER:
        ask_transfer(s, ring, command);
        break;
    case FILL_RECT:
    case BLIT:
        ask_rectangle(s, ring, command);
        break;
    case DISPATCH_1D:
        ask_dispatch(s, number, command);
        break;
    case SET_FB:
        ask_frame(s, ring, command);
        break;
    default: /* BARRIER, whose arguments may be anything */
        command->arg0 = mille(s->c, 200) ? any_word(s->c) : 0;
        break;
    }
    if (command->len == 0 && mille(s->c, 100)) /* a len that means nothing */
        command->len = command->opcode == WRITE_MEM
            || command->opcode == READ_MEM || command->opcode == COPY_BUFFER
            ? 0 : below(s->c, IND_LEN_MOST + 1);
}

/* ---- flags, slot and target ---- */

static int at_edge(struct scene *s)
{
    return s->edged != 0 && mille(s->c, s->edged);
}

/* One that is met: what the slot holds, a little less, or any edge. */
static uint32_t met_target(struct scene *s, uint32_t slot)
{
    uint32_t holds = s->device.slots[slot];

    if (at_edge(s))
        return edged_target(s->c, &s->device, slot, 1);
    if (odd(s))
        return mille(s->c, 300) && ind_slot_met(&s->device, slot, 0) ? 0
                                                                     : holds;
    return holds - below(s->c, lesser(holds, 3) + 1);
}

/* One that is not met: a little more than the slot holds, which is not full, or
 * an edge. */
static uint32_t unmet_target(struct scene *s, uint32_t slot)
{
    uint32_t holds = s->device.slots[slot];

    if (at_edge(s))
        return edged_target(s->c, &s->device, slot, 0);
    if (odd(s) && mille(s->c, 300)
        && !ind_slot_met(&s->device, slot, UINT32_MAX))
        return UINT32_MAX;
    return holds + 1 + below(s->c, 1 + (holds < 100));
}

int make_wait(struct scene *s, struct ind_command *command)
{
    command->flags |= FLAG_WAIT;
    for (uint32_t i = 0; i < IND_SLOTS; i++) {
        uint32_t slot = (command->rdst + i) % IND_SLOTS;
        if (ind_slot_full(&s->device, slot))
            continue;
        command->rdst = slot;
        command->target = unmet_target(s, slot);
        return 1;
    }
    return 0;
}

void spoil_header(struct scene *s, struct ind_command *command)
{
    static const uint8_t strangers[12] = {
        0x00, 0x03, 0x0F, 0x12, 0x13, 0x21, 0x24, 0x31, 0x40, 0x42, 0x81, 0xFF
    };
    static const uint8_t slots[4] = { IND_SLOTS, IND_SLOTS + 1, 128, 255 };
    uint32_t faults = 1 + below(s->c, 15); /* one bit for each of 1 to 4 */

    if (mille(s->c, 500))
        faults = 1u << below(s->c, 4);
    if (faults & 1)
        command->opcode = strangers[below(s->c, 12)];
    if (faults & 2)
        command->flags |= 0x10u << below(s->c, 4);
    if (faults & 4)
        command->flags ^= FLAG_PAYLOAD;
    if (faults & 8) {
        command->rdst = slots[below(s->c, 4)];
        command->flags |= FLAG_EMIT << below(s->c, 2);
        command->target = edge_word(s->c);
    }
}

/* So many of 1,000 commands emit: more in edition 2, and for full slots. */
static uint32_t emitting(const struct scene *s)
{
    if (s->full != ANY)
        return 900;
    return s->device.edition == IND_EDITION_2 ? 700 : 500;
}

static void draw_flags(struct scene *s, struct ind_command *command)
{
    command->flags = command->opcode == WRITE_MEM ? FLAG_PAYLOAD : 0;
    if (mille(s->c, 300))
        command->flags |= FLAG_IRQ;
    if (mille(s->c, emitting(s)))
        command->flags |= FLAG_EMIT;
    if (mille(s->c, s->waits == ANY ? 300 : (uint32_t)s->waits))
        command->flags |= FLAG_WAIT;
    command->rdst = below(s->c, mille(s->c, 800) ? s->slots : IND_SLOTS);
    if (odd(s))
        command->rdst = IND_SLOTS - 1;
    if (command->flags & FLAG_WAIT)
        command->target = met_target(s, command->rdst);
    else if ((command->flags & FLAG_EMIT) == 0 && mille(s->c, 100))
        command->rdst = below(s->c, 256); /* no slot is asked for */
}

struct ind_command draw_command(struct scene *s, uint32_t ring, int opcode)
{
    struct ind_command command = {
        .opcode = (uint32_t)opcode, .flags = 0, .rdst = 0, .len = 0, .arg0 = 0,
        .arg1 = 0, .arg2 = 0, .target = 0, .size = 0, .payload = NULL
    };

    draw_flags(s, &command);
    ask_work(s, ring, &command);
    if (odd(s) && mille(s->c, 400))
        spoil_header(s, &command);
    return command;
}

uint32_t add_command(struct scene *s, uint32_t ring,
                     const struct ind_command *command)
{
    struct piece *piece = &s->call->pieces[PIECE_RING + ring];
    size_t before = piece->length;
    uint8_t payload[WORD * IND_LEN_MOST];

    piece_add_word(piece, command->opcode | command->flags << 8
                   | command->rdst << 16 | command->len << 24);
    piece_add_word(piece, command->arg0);
    piece_add_word(piece, command->arg1);
    piece_add_word(piece, command->arg2);
    if (command->flags & FLAG_WAIT)
        piece_add_word(piece, command->target);
    if (command->flags & FLAG_PAYLOAD) {
        edge_bytes(s->c, payload, (size_t)WORD * command->len);
        piece_add(piece, payload, (size_t)WORD * command->len);
    }
    return (uint32_t)(piece->length - before);
}
