/* The pack of a scene. */
#include "cases/kernels/packs.h"
#include "cases/kernels/table.h"
#include "cases/scene.h"
#include "device/parts.h"

/* Most kernels are short; one in some ten takes its time or many words. */
static enum style any_style(struct scene *s)
{
    uint32_t x = below(s->c, 1000);

    return x < 550 ? STYLE_BRIEF : x < 640 ? STYLE_LATE : x < 750 ? STYLE_MISS
         : x < 870 ? STYLE_CAREFUL : x < 900 ? STYLE_NEAR
         : x < 930 ? STYLE_WILD : x < 950 ? STYLE_NOISE
         : x < 995 ? STYLE_EXACT : STYLE_FAR;
}

/* A thread's own number to its own word, or nothing: for many threads. */
static uint32_t make_tiny(struct scene *s, uint32_t *code)
{
    uint32_t n = 0;

    if (mille(s->c, 600)) {
        code[n++] = word_r(ROW_MUL, 5, 1, 3);
        code[n++] = word_r(ROW_ADD, 5, 5, 2);
        code[n++] = word_i(ROW_ANDI, 6, 5, 31);
        code[n++] = word_r(ROW_SHLI, 6, 6, 2);
        code[n++] = word_s(ROW_SW, 6, 5, 0);
    }
    code[n++] = table[ROW_WFI].match;
    return n;
}

/* A kernel that uses up its steps is run by one thread where they are many. */
static uint32_t exact_threads(struct scene *s)
{
    return s->device.limit >= IND_LIMIT_DEFAULT ? 1 : 1 + below(s->c, 2);
}

/* So many groups, and threads in a group, may run a kernel of this style. */
static uint32_t threads_for(struct scene *s, enum style style)
{
    switch (style) {
    case STYLE_EXACT:
        return exact_threads(s);
    case STYLE_LATE:
        return mille(s->c, 150) ? IND_SIDE_MOST : 6;
    default:
        return 3;
    }
}

/* The kernel made for a ring. */
static uint32_t make_own(struct scene *s, uint32_t number, uint32_t ring,
                         uint32_t *code)
{
    uint32_t window = s->device.rings[ring].window_length;
    enum style style = s->style == ANY ? any_style(s) : (enum style)s->style;

    if (s->style == ANY && odd(s) && mille(s->c, 800)) {
        s->threads[number] = IND_SIDE_MOST;
        return make_tiny(s, code);
    }
    s->threads[number] = threads_for(s, style);
    return make_kernel(s->c, style, window, s->device.limit, code);
}

/* Words of no kernel, so that the first does not start with the code; gives how
 * many. */
static uint32_t put_no_kernel(struct scene *s, uint32_t *code)
{
    uint32_t words = 1 + below(s->c, 3);

    for (uint32_t i = 0; i < words; i++)
        code[i] = 0;
    return words;
}

/* Kernels that are no ring's are parts of the same code: they cost no words. */
void draw_kernels(struct scene *s, uint32_t own)
{
    static uint32_t code[(IND_RINGS + 2) * KERNEL_WORDS_MOST];
    static uint8_t laid[PACK_MOST];
    uint32_t first[IND_KERNELS_MOST], words[IND_KERNELS_MOST], total = 0;
    uint32_t parts = 0;

    if (own != 0 && mille(s->c, 250))
        total = put_no_kernel(s, code);
    if (own != 0 && mille(s->c, 300))
        parts = below(s->c, IND_KERNELS_MOST - own - s->probes + 1);
    for (uint32_t i = 0; i < own + s->probes; i++) {
        uint32_t ring = own == 1 ? s->lead : i % IND_RINGS;
        first[parts + i] = total;
        words[parts + i] = i < own ? make_own(s, i, ring, code + total)
            : make_probe(code + total, s->device.rings[ring].window_length);
        total += words[parts + i];
    }
    for (uint32_t i = 0; i < parts; i++) {
        first[i] = below(s->c, total);
        words[i] = 1 + below(s->c, total - first[i]);
    }
    s->own = own;
    s->kernels = parts + own + s->probes;
    uint32_t length = lay_pack(laid, s->kernels, first, words, code, total);
    piece_zeros(&s->call->pieces[PIECE_PACK], 0);
    piece_add(&s->call->pieces[PIECE_PACK], laid, length);
}
