#include "cases/cases.h"

#include "cases/commands.h"
#include "cases/draw.h"
#include "device/image.h"

const char *const case_names[CASE_KINDS] = {
    "fresh", "structured", "edged", "damaged"
};

/* Two seeds have nothing in common, nor have two cases of one seed. */
struct chance case_chance(uint64_t seed, uint64_t number)
{
    struct chance c = chance_of(seed);

    return chance_of(c.state + number);
}

void draw_turn(struct scene *s, uint32_t memory_len)
{
    draw_state(s, memory_len);
    draw_kernels(s, s->opcode == DISPATCH_1D || mille(s->c, 60));
    draw_rings(s);
    draw_pipe(s);
    scene_done(s);
}

void draw_structured(struct call *call, struct chance *c)
{
    struct scene s;

    scene_start(&s, call, c, 40);
    draw_turn(&s, 0);
}

enum case_kind draw_case(struct call *call, uint64_t seed, uint64_t number)
{
    struct chance c = case_chance(seed, number);
    uint32_t x = below(&c, 1000);

    if (x < 115) {
        draw_fresh(call, &c);
        return CASE_FRESH;
    }
    if (x < 430) {
        draw_structured(call, &c);
        return CASE_STRUCTURED;
    }
    if (x < 890) {
        draw_edged(call, &c);
        return CASE_EDGED;
    }
    draw_damaged(call, &c);
    return CASE_DAMAGED;
}

/* None, any, or near the length that the piece has to have. */
static void draw_length(struct piece *piece, struct chance *c, uint32_t right)
{
    if (mille(c, 150))
        piece_zeros(piece, 0);
    else if (mille(c, 300))
        piece_zeros(piece, below(c, right + ROOM_BESIDE + 1));
    else if (mille(c, 300)) /* some words short */
        piece_zeros(piece, right - WORD * (1 + below(c, 6)));
    else
        piece_zeros(piece, right - WORD + below(c, 2 * WORD + 1));
}

void draw_lengths(struct call *call, uint64_t seed, uint64_t number)
{
    struct chance c = case_chance(~seed, number);

    /* Of makings, which are few, more. */
    if (!mille(&c, call->kind != CALL_TURN ? 250 : 40))
        return;
    if (mille(&c, 500))
        draw_length(&call->pieces[PIECE_DEVICE], &c, IND_IMAGE_BYTES);
    if (!mille(&c, 700))
        return;
    if (call->kind != CALL_TURN)
        draw_length(&call->pieces[PIECE_WINDOWS], &c, IND_WINDOWS_BYTES);
    else
        draw_length(&call->pieces[PIECE_REPORT], &c, IND_REPORT_BYTES);
}
