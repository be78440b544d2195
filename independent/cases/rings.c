/* The rings of a scene. */
#include "cases/commands.h"

enum { HEADER = IND_HEADER_BYTES, NOISE_MOST = 40 }; /* bytes */

/* What was taken before: mostly nothing, else whole commands' worth of bytes or
 * any number. Of a ring that is not to be served, more often nothing. */
static uint32_t any_cursor(struct scene *s, uint32_t ring)
{
    switch (below(s->c, ring == s->lead ? 25 : 44)) {
    case 0:
    case 1:
        return HEADER * (1 + below(s->c, 2));
    case 2:
        return HEADER + WORD + HEADER * below(s->c, 2);
    case 3:
        return below(s->c, NOISE_MOST);
    default:
        return 0;
    }
}

static void add_noise(struct scene *s, uint32_t ring, uint32_t count)
{
    uint8_t noise[NOISE_MOST];

    edge_bytes(s->c, noise, count);
    piece_add(&s->call->pieces[PIECE_RING + ring], noise, count);
}

/* Takes bytes from its end, so that the head command is not whole any more. */
static void cut(struct scene *s, uint32_t ring, uint32_t size)
{
    struct piece *piece = &s->call->pieces[PIECE_RING + ring];
    uint32_t less = 1 + below(s->c, mille(s->c, 500) ? 4 : size);

    piece_end(piece, piece->length - less);
}

static void add_head(struct scene *s, uint32_t ring)
{
    static const uint8_t opcodes[8] = {
        READ_MEM, FILL_RECT, BLIT, DISPATCH_1D, BARRIER, BARRIER, COPY_BUFFER,
        SET_FB
    };
    int opcode = opcodes[below(s->c, 8)];

    if (ring == s->lead)
        opcode = s->opcode;
    else if (mille(s->c, 40)) /* a payload that is not looked at is dear */
        opcode = WRITE_MEM;
    struct ind_command command = draw_command(s, ring, opcode);

    if (s->heads[ring] == HEAD_WAITING)
        make_wait(s, &command);
    uint32_t size = add_command(s, ring, &command);
    if (s->heads[ring] == HEAD_CUT)
        cut(s, ring, size);
    else if (mille(s->c, 90)) /* something behind it */
        add_noise(s, ring, 1 + below(s->c, 24));
}

void draw_rings(struct scene *s)
{
    for (uint32_t ring = 0; ring < IND_RINGS; ring++) {
        uint32_t cursor = any_cursor(s, ring);
        add_noise(s, ring, cursor);
        s->device.rings[ring].cursor = cursor;
        if (s->heads[ring] != HEAD_NONE)
            add_head(s, ring);
    }
}
