#include "cases/call.h"

#include <stdio.h>
#include <stdlib.h>
#include <string.h>

#include "cases/kernels/packs.h"
#include "cases/words.h"
#include "device/image.h"
#include "device/parts.h"

enum {
    SPAN_BYTES = 2 * WORD, LIMIT_BYTES = WORD, FIRST_BYTES = WORD,
    ANSWER_BYTES = WORD
};

/* A little more than a device takes, so that what is too long can be lent. */
static const size_t most[PIECES] = {
    [PIECE_DEVICE] = IND_IMAGE_BYTES + ROOM_BESIDE,
    [PIECE_MEMORY] = IND_MEMORY_MOST + ROOM_BESIDE,
    [PIECE_RING] = IND_RING_MOST + ROOM_BESIDE,
    [PIECE_RING + 1] = IND_RING_MOST + ROOM_BESIDE,
    [PIECE_RING + 2] = IND_RING_MOST + ROOM_BESIDE,
    [PIECE_RING + 3] = IND_RING_MOST + ROOM_BESIDE,
    [PIECE_PACK] = PACK_MOST,
    [PIECE_PIPE] = IND_PIPE_LEAST + PIPE_ROOM_BESIDE,
    [PIECE_REPORT] = IND_REPORT_BYTES + ROOM_BESIDE,
    [PIECE_WINDOWS] = IND_WINDOWS_BYTES + ROOM_BESIDE,
    [PIECE_SPAN] = SPAN_BYTES, [PIECE_LIMIT] = LIMIT_BYTES,
    [PIECE_FIRST] = FIRST_BYTES, [PIECE_ANSWER] = ANSWER_BYTES
};

const char *const piece_names[PIECES] = {
    "device", "memory", "ring 0", "ring 1", "ring 2", "ring 3", "pack", "pipe",
    "report", "windows", "memory length", "limit", "first", "answer"
};

const struct calls independent = {
    ind_fv_fresh, ind_fv_fresh_with, ind_fv_fresh_edition_2, ind_fv_turn
};

static void *must(void *room)
{
    if (room == NULL) {
        fprintf(stderr, "no memory for a call\n");
        exit(2);
    }
    return room;
}

static void must_hold(const struct piece *piece, size_t length)
{
    if (length > piece->most) {
        fprintf(stderr, "%s: %zu bytes have no room in %zu\n", piece->name,
                length, piece->most);
        exit(2);
    }
}

/* The bytes behind a piece are known, to see that a call leaves them. */
void piece_end(struct piece *piece, size_t length)
{
    must_hold(piece, length);
    piece->length = length;
    memset(piece->bytes + length, 0xA5, GUARD);
}

struct call *call_new(void)
{
    struct call *call = must(calloc(1, sizeof *call));

    for (int i = 0; i < PIECES; i++) {
        call->pieces[i].name = piece_names[i];
        call->pieces[i].most = most[i];
        call->pieces[i].bytes = must(malloc(most[i] + GUARD));
        piece_end(&call->pieces[i], 0);
    }
    return call;
}

void call_free(struct call *call)
{
    for (int i = 0; i < PIECES; i++)
        free(call->pieces[i].bytes);
    free(call);
}

void piece_zeros(struct piece *piece, size_t length)
{
    piece_end(piece, length);
    memset(piece->bytes, 0, piece->length);
}

void piece_add(struct piece *piece, const uint8_t *bytes, size_t count)
{
    must_hold(piece, piece->length + count);
    if (count != 0)
        memcpy(piece->bytes + piece->length, bytes, count);
    piece_end(piece, piece->length + count);
}

void piece_add_word(struct piece *piece, uint32_t word)
{
    uint8_t bytes[WORD];

    put_word(bytes, word);
    piece_add(piece, bytes, sizeof bytes);
}

void call_start(struct call *call, enum call_kind kind)
{
    call->kind = kind;
    call->nulls = 0;
    for (int i = 0; i < PIECES; i++)
        piece_end(&call->pieces[i], 0);
    piece_zeros(&call->pieces[PIECE_DEVICE], IND_IMAGE_BYTES);
    piece_zeros(&call->pieces[PIECE_ANSWER], ANSWER_BYTES);
    if (kind == CALL_FRESH_WITH || kind == CALL_FRESH_EDITION_2)
        piece_zeros(&call->pieces[PIECE_LIMIT], LIMIT_BYTES);
    if (kind == CALL_FRESH_EDITION_2)
        piece_zeros(&call->pieces[PIECE_FIRST], FIRST_BYTES);
    if (kind != CALL_TURN) {
        piece_zeros(&call->pieces[PIECE_WINDOWS], IND_WINDOWS_BYTES);
        piece_zeros(&call->pieces[PIECE_SPAN], SPAN_BYTES);
        return;
    }
    piece_zeros(&call->pieces[PIECE_REPORT], IND_REPORT_BYTES);
    memset(call->pieces[PIECE_REPORT].bytes, 0xEE, IND_REPORT_BYTES);
}

void call_copy(struct call *to, const struct call *from)
{
    to->kind = from->kind;
    to->nulls = from->nulls;
    for (int i = 0; i < PIECES; i++) {
        to->pieces[i].length = from->pieces[i].length;
        memcpy(to->pieces[i].bytes, from->pieces[i].bytes,
               from->pieces[i].length + GUARD);
    }
}

uint64_t call_span(const struct call *call)
{
    const uint8_t *bytes = call->pieces[PIECE_SPAN].bytes;

    return get_word(bytes) | (uint64_t)get_word(bytes + WORD) << 32;
}

uint32_t call_limit(const struct call *call)
{
    return get_word(call->pieces[PIECE_LIMIT].bytes);
}

uint32_t call_first(const struct call *call)
{
    return get_word(call->pieces[PIECE_FIRST].bytes);
}

uint32_t call_answer(const struct call *call)
{
    return get_word(call->pieces[PIECE_ANSWER].bytes);
}

int call_lends_empty(const struct call *call, int piece)
{
    int lends = call->kind == CALL_TURN
        ? piece <= PIECE_REPORT
        : piece == PIECE_DEVICE || piece == PIECE_WINDOWS;

    return lends && call->pieces[piece].length == 0;
}

static uint8_t *lent(const struct call *call, int piece)
{
    return call->nulls && call_lends_empty(call, piece)
        ? NULL : call->pieces[piece].bytes;
}

#define LENT(piece) lent(call, piece), call->pieces[piece].length

static uint32_t answer_of(struct call *call, const struct calls *calls)
{
    switch (call->kind) {
    case CALL_FRESH:
        return calls->fresh(LENT(PIECE_DEVICE), LENT(PIECE_WINDOWS),
                            call_span(call));
    case CALL_FRESH_WITH:
        return calls->fresh_with(LENT(PIECE_DEVICE), LENT(PIECE_WINDOWS),
                                 call_span(call), call_limit(call));
    case CALL_FRESH_EDITION_2:
        return calls->fresh_edition_2(LENT(PIECE_DEVICE), LENT(PIECE_WINDOWS),
                                      call_span(call), call_limit(call),
                                      call_first(call));
    default:
        return calls->turn(LENT(PIECE_DEVICE), LENT(PIECE_MEMORY),
                           LENT(PIECE_RING), LENT(PIECE_RING + 1),
                           LENT(PIECE_RING + 2), LENT(PIECE_RING + 3),
                           LENT(PIECE_PACK), LENT(PIECE_PIPE),
                           LENT(PIECE_REPORT));
    }
}

void call_make(struct call *call, const struct calls *calls)
{
    uint32_t answer = answer_of(call, calls);

    put_word(call->pieces[PIECE_ANSWER].bytes, answer);
}

int call_difference(const struct call *a, const struct call *b)
{
    for (int i = 0; i < PIECES; i++) {
        const struct piece *x = &a->pieces[i], *y = &b->pieces[i];
        if (x->length != y->length
            || memcmp(x->bytes, y->bytes, x->length + GUARD) != 0)
            return i;
    }
    return -1;
}
