#include "cases/jobs.h"

#include "cases/commands.h"
#include "cases/draw.h"
#include "cases/kernels/packs.h"
#include "cases/words.h"
#include "device/image.h"
#include "device/job.h"

enum {
    COUNTS_BYTES = WORD * (1 + IND_RINGS + 1), /* windows, rings, memory */
    /* A draw may lay much more than an input may have: the rest is cut off. */
    LAID_MOST = COUNTS_BYTES + IND_WINDOWS_BYTES
              + IND_RINGS * (IND_RING_MOST + ROOM_BESIDE) + PACK_MOST
              + WORD * (IND_JOB_WORDS_MOST + 1),
    JOB_MOST = IND_INPUT_MOST + ROOM_BESIDE,
    SCROLLED_MOST = 40 /* words written before a copy */
};

static uint8_t room[LAID_MOST + GUARD];
static struct piece input = { "input", room, 0, LAID_MOST };

/* ---- rings whose commands are all served in the end ---- */

/* What the slots and frames are once this command is served. An order in which
 * all are served is the one in which they are drawn: each waits at most for
 * commands drawn before it. */
static void foresee(struct scene *s, uint32_t ring,
                    const struct ind_command *command)
{
    struct ind_ring *own = &s->device.rings[ring];
    struct ind_frame asked = ind_frame_asked(command);

    if (ind_header_fault(command) != IND_DONE)
        return;
    if (command->flags & FLAG_EMIT)
        s->device.slots[command->rdst]++;
    if (command->opcode == SET_FB
        && ind_frame_fault(&asked, own->window_length) == IND_DONE)
        own->frame = asked;
}

/* One thread of the ring's probe. */
static void add_probe(struct scene *s, uint32_t ring)
{
    const struct ind_command command = {
        .opcode = DISPATCH_1D, .arg0 = 1, .arg1 = 1,
        .arg2 = s->kernels - s->probes + ring
    };

    add_command(s, ring, &command);
}

/* Words for both sides of a copy, which mostly overlap, then the copy, and the
 * probe that tells what it left. */
static void draw_scroll(struct scene *s, uint32_t ring)
{
    const struct ind_ring *own = &s->device.rings[ring];
    int opcode = own->frame.held != 0 && mille(s->c, 700) ? BLIT : COPY_BUFFER;
    struct ind_command copy = draw_command(s, ring, opcode);
    uint32_t lower = copy.arg0 < copy.arg1 ? copy.arg0 : copy.arg1;
    uint32_t left = lower < own->window_length
        ? (own->window_length - lower) / WORD : 0;
    const struct ind_command words = {
        .opcode = WRITE_MEM, .flags = FLAG_PAYLOAD, .arg0 = lower,
        .len = left < SCROLLED_MOST ? left : SCROLLED_MOST
    };

    add_command(s, ring, &words);
    add_command(s, ring, &copy);
    foresee(s, ring, &copy);
    add_probe(s, ring);
}

static void draw_job_command(struct scene *s)
{
    static const uint8_t opcodes[10] = {
        WRITE_MEM, READ_MEM, FILL_RECT, BLIT, DISPATCH_1D, DISPATCH_1D,
        BARRIER, COPY_BUFFER, SET_FB, SET_FB
    };
    uint32_t ring = below(s->c, IND_RINGS);
    uint32_t opcode = opcodes[below(s->c, 10)];

    if (s->probes != 0 && mille(s->c, 120)) {
        draw_scroll(s, ring);
        return;
    }
    if ((opcode == FILL_RECT || opcode == BLIT)
        && s->device.rings[ring].frame.held == 0 && !mille(s->c, 150))
        opcode = SET_FB; /* first */
    struct ind_command command = draw_command(s, ring, (int)opcode);
    if (mille(s->c, 20)) /* for what may never come */
        make_wait(s, &command);
    add_command(s, ring, &command);
    foresee(s, ring, &command);
    if (s->probes != 0 && mille(s->c, 350))
        add_probe(s, ring);
}

static uint32_t any_words(struct scene *s)
{
    if (odd(s) && mille(s->c, 200))
        return mille(s->c, 500) ? 0 : IND_JOB_WORDS_MOST;
    return mille(s->c, 100) ? below(s->c, 1024) : 16 + below(s->c, 100);
}

static void draw_sections(struct scene *s)
{
    s->slots = 1 + below(s->c, 4);
    draw_memory(s, 4 * any_words(s));
    if (mille(s->c, 500))
        mix_memory(s);
    for (uint32_t ring = 0; ring < IND_RINGS; ring++)
        draw_window(s, ring);
    s->probes = mille(s->c, 700) ? IND_RINGS : 0;
    draw_kernels(s, mille(s->c, 850) ? IND_RINGS : 0);
    for (uint32_t n = 1 + below(s->c, 16); n > 0; n--)
        draw_job_command(s);
    for (uint32_t ring = 0; ring < s->probes; ring++)
        add_probe(s, ring);
}

/* ---- edges ---- */

static void miss_windows(struct scene *s)
{
    struct ind_ring *ring = &s->device.rings[below(s->c, IND_RINGS)];

    switch (below(s->c, 5)) {
    case 0: /* up to the end of the memory, or past it */
        ring->window_length = s->memory_len - ring->window_start
            + 4 * below(s->c, 2);
        break;
    case 1:
        ring->window_start = s->memory_len + 4 * below(s->c, 2);
        ring->window_length = 0;
        break;
    case 2:
        ring->window_length += 1 + below(s->c, 3);
        break;
    case 3:
        ring->window_start = 0xFFFFFFFCu;
        ring->window_length = 4 + 4 * below(s->c, 2);
        break;
    default:
        ring->window_start = edge_word(s->c);
        break;
    }
}

/* A pack that is faulty in its kernels or its code, or neither. */
static void miss_pack(struct scene *s)
{
    static uint8_t bytes[PACK_MOST];
    struct piece *pack = &s->call->pieces[PIECE_PACK];

    if (mille(s->c, 500)) {
        piece_zeros(pack, 0);
        piece_add(pack, bytes, draw_pack(s->c, bytes));
    } else {
        piece_end(pack, damage_pack(s->c, pack->bytes,
                                    (uint32_t)pack->length));
    }
}

static void cut_ring(struct scene *s)
{
    struct piece *ring = &s->call->pieces[PIECE_RING + below(s->c, IND_RINGS)];
    uint32_t less = 1 + below(s->c, 20);

    if (ring->length > less)
        piece_end(ring, ring->length - less);
}

/* Words that are no kernel's, up to an input as long as it may be or one
 * longer; what is left of that goes to a ring. */
static void fill_up(struct scene *s, size_t length)
{
    struct piece *pack = &s->call->pieces[PIECE_PACK];
    struct piece *ring = &s->call->pieces[PIECE_RING + 3];
    size_t most = IND_INPUT_MOST - 1 + below(s->c, 3);
    uint8_t *count = pack->bytes + WORD + (size_t)IND_PAIR_BYTES * s->kernels;

    if (length >= most)
        return;
    uint32_t words = (uint32_t)(most - length) / WORD;
    if (get_word(count) + words > IND_CODE_MOST)
        return;
    put_word(count, get_word(count) + words);
    for (uint32_t i = 0; i < words; i++)
        piece_add_word(pack, 0);
    piece_add(ring, (const uint8_t *)"\0\0\0", (most - length) % WORD);
}

/* ---- the input ---- */

static size_t input_length(const struct call *call)
{
    size_t length = COUNTS_BYTES + IND_WINDOWS_BYTES;

    for (int i = PIECE_MEMORY; i <= PIECE_PACK; i++)
        length += call->pieces[i].length;
    return length;
}

static void add_piece(const struct piece *piece)
{
    piece_add(&input, piece->bytes, piece->length);
}

/* Sections in their order; an odd count stands for each that is asked for. */
static void lay_input(struct scene *s, int odd_counts)
{
    const struct piece *pieces = s->call->pieces;
    uint32_t windows = IND_RINGS, words = s->memory_len / 4;

    if (odd_counts && mille(s->c, 300))
        windows = mille(s->c, 600) ? 3 + 2 * below(s->c, 2) : edge_word(s->c);
    if (odd_counts && mille(s->c, 300))
        words = mille(s->c, 600) ? words - 1 + 2 * below(s->c, 2)
                                 : edge_word(s->c);
    piece_zeros(&input, 0);
    piece_add_word(&input, windows);
    for (uint32_t i = 0; i < IND_RINGS; i++) {
        piece_add_word(&input, s->device.rings[i].window_start);
        piece_add_word(&input, s->device.rings[i].window_length);
    }
    for (uint32_t i = 0; i < IND_RINGS; i++) {
        uint32_t count = (uint32_t)pieces[PIECE_RING + i].length;
        if (odd_counts && mille(s->c, 150))
            count = mille(s->c, 500) ? IND_INPUT_MOST : edge_word(s->c);
        piece_add_word(&input, count);
        add_piece(&pieces[PIECE_RING + i]);
    }
    add_piece(&pieces[PIECE_PACK]);
    piece_add_word(&input, words);
    add_piece(&pieces[PIECE_MEMORY]);
    if (input.length > JOB_MOST)
        piece_end(&input, JOB_MOST);
}

static void draw_edged_job(struct scene *s)
{
    uint32_t ways = 1u << below(s->c, 6);

    if (mille(s->c, 200))
        ways |= 1u << below(s->c, 6);
    s->odd = 250;
    draw_sections(s);
    if (ways & 1)
        miss_windows(s);
    if (ways & 2)
        cut_ring(s);
    if (ways & 4)
        miss_pack(s);
    if (ways & 8) /* one word more than there may be */
        draw_memory(s, 4 * (IND_JOB_WORDS_MOST + below(s->c, 2)));
    if ((ways & 4) == 0 && (ways & 16))
        fill_up(s, input_length(s->call));
    lay_input(s, (ways & 32) != 0);
    if (ways == 32 && mille(s->c, 300)) /* bytes left over */
        for (uint32_t n = 1 + below(s->c, 8); n > 0; n--)
            piece_add(&input, (const uint8_t *)"", 1);
}

static void damage_input(struct scene *s)
{
    switch (below(s->c, 6)) {
    case 0:
        piece_end(&input, input.length - 1 - below(s->c, 8));
        break;
    case 1:
        piece_end(&input, below(s->c, (uint32_t)input.length));
        break;
    case 2:
        piece_add_word(&input, edge_word(s->c));
        break;
    default:
        for (uint32_t n = 1 + below(s->c, 3); n > 0; n--) {
            uint32_t at = below(s->c, (uint32_t)input.length);
            input.bytes[at] = (uint8_t)edge_word(s->c);
        }
        break;
    }
}

const struct piece *draw_job(uint64_t seed, uint64_t number)
{
    static struct call *call;
    struct chance c = case_chance(seed, number);
    uint32_t x = below(&c, 100);
    struct scene s;

    if (call == NULL)
        call = call_new();
    scene_start(&s, call, &c, 40);
    if (x >= 60 && x < 85) {
        draw_edged_job(&s);
        return &input;
    }
    draw_sections(&s);
    lay_input(&s, 0);
    if (x >= 85)
        damage_input(&s);
    if (x == 99) { /* any bytes */
        piece_zeros(&input, below(&c, 300));
        edge_bytes(&c, input.bytes, input.length);
    }
    return &input;
}
