#include "records/records.h"

#include <string.h>

#include "cases/words.h"
#include "device/image.h"
#include "device/parts.h"

enum { PIECE_HEAD = 2 * WORD }; /* bytes: length and stored */

/* A piece of a record: which, and of the call before or after it was made. */
struct part {
    enum call_piece piece;
    int after;
};

static const struct part fresh_parts[] = {
    { PIECE_WINDOWS, 0 }, { PIECE_SPAN, 0 }, { PIECE_DEVICE, 0 },
    { PIECE_DEVICE, 1 }, { PIECE_ANSWER, 1 }
};

static const struct part fresh_with_parts[] = {
    { PIECE_WINDOWS, 0 }, { PIECE_SPAN, 0 }, { PIECE_DEVICE, 0 },
    { PIECE_DEVICE, 1 }, { PIECE_ANSWER, 1 }, { PIECE_LIMIT, 0 }
};

static const struct part fresh_edition_2_parts[] = {
    { PIECE_WINDOWS, 0 }, { PIECE_SPAN, 0 }, { PIECE_DEVICE, 0 },
    { PIECE_DEVICE, 1 }, { PIECE_ANSWER, 1 }, { PIECE_LIMIT, 0 },
    { PIECE_FIRST, 0 }
};

static const struct part turn_parts[] = {
    { PIECE_DEVICE, 0 }, { PIECE_MEMORY, 0 }, { PIECE_RING, 0 },
    { PIECE_RING + 1, 0 }, { PIECE_RING + 2, 0 }, { PIECE_RING + 3, 0 },
    { PIECE_PACK, 0 }, { PIECE_PIPE, 0 }, { PIECE_DEVICE, 1 },
    { PIECE_MEMORY, 1 }, { PIECE_PIPE, 1 }, { PIECE_REPORT, 1 }
};

#define COUNT(parts) (sizeof parts / sizeof parts[0])

static const struct part *parts_of(enum call_kind kind, size_t *count)
{
    switch (kind) {
    case CALL_FRESH:
        *count = COUNT(fresh_parts);
        return fresh_parts;
    case CALL_FRESH_WITH:
        *count = COUNT(fresh_with_parts);
        return fresh_with_parts;
    case CALL_FRESH_EDITION_2:
        *count = COUNT(fresh_edition_2_parts);
        return fresh_edition_2_parts;
    default:
        *count = COUNT(turn_parts);
        return turn_parts;
    }
}

/* Zeros at the end of a piece are not stored. */
static size_t stored(const struct piece *piece)
{
    size_t length = piece->length;

    while (length > 0 && piece->bytes[length - 1] == 0)
        length--;
    return length;
}

static void write_word(FILE *out, size_t word)
{
    uint8_t bytes[WORD];

    put_word(bytes, (uint32_t)word);
    fwrite(bytes, 1, sizeof bytes, out);
}

size_t record_write(FILE *out, const struct call *before,
                    const struct call *after, size_t most)
{
    size_t count, body = WORD;
    const struct part *parts = parts_of(before->kind, &count);
    const struct piece *pieces[COUNT(turn_parts)];

    for (size_t i = 0; i < count; i++) {
        pieces[i] = &(parts[i].after ? after : before)->pieces[parts[i].piece];
        body += PIECE_HEAD + stored(pieces[i]);
    }
    if (body > most || body > RECORD_MOST)
        return 0;
    write_word(out, body);
    write_word(out, before->kind);
    for (size_t i = 0; i < count; i++) {
        size_t bytes = stored(pieces[i]);
        write_word(out, pieces[i]->length);
        write_word(out, bytes);
        fwrite(pieces[i]->bytes, 1, bytes, out);
    }
    return body + WORD;
}

/* Takes one piece from the front of a body; 0 if it is none. */
static int take_piece(const uint8_t **at, const uint8_t *end,
                      struct piece *piece)
{
    if (end - *at < PIECE_HEAD)
        return 0;
    uint32_t length = get_word(*at), bytes = get_word(*at + WORD);
    *at += PIECE_HEAD;
    if (length > piece->most || bytes > length || end - *at < (long)bytes)
        return 0;
    piece_zeros(piece, length);
    memcpy(piece->bytes, *at, bytes);
    *at += bytes;
    return 1;
}

static int take_pieces(const uint8_t *at, const uint8_t *end,
                       struct call *before, struct call *after)
{
    size_t count;
    const struct part *parts = parts_of(before->kind, &count);

    for (size_t i = 0; i < count; i++) {
        struct call *call = parts[i].after ? after : before;
        if (!take_piece(&at, end, &call->pieces[parts[i].piece]))
            return 0;
    }
    return at == end;
}

/* Pieces that are only lent, or that only a call's making fills, are the same
 * before and after. */
static void complete(struct call *before, struct call *after)
{
    size_t count;
    const struct part *parts = parts_of(before->kind, &count);

    for (size_t i = 0; i < count; i++) {
        struct piece *from = &before->pieces[parts[i].piece];
        if (parts[i].after || parts[i].piece == PIECE_DEVICE
            || parts[i].piece == PIECE_MEMORY || parts[i].piece == PIECE_PIPE)
            continue;
        piece_zeros(&after->pieces[parts[i].piece], 0);
        piece_add(&after->pieces[parts[i].piece], from->bytes, from->length);
    }
    if (before->kind == CALL_TURN) /* a turn answers its report's first word */
        memcpy(after->pieces[PIECE_ANSWER].bytes,
               after->pieces[PIECE_REPORT].bytes, WORD);
}

int record_read(FILE *in, struct call *before, struct call *after)
{
    static uint8_t body[RECORD_MOST];
    uint8_t word[WORD];
    size_t got = fread(word, 1, sizeof word, in);

    if (got == 0 && feof(in))
        return 0;
    uint32_t length = got == sizeof word ? get_word(word) : 0;
    if (length < WORD || length > RECORD_MOST
        || fread(body, 1, length, in) != length || get_word(body) >= CALL_KINDS)
        return -1;
    call_start(before, (enum call_kind)get_word(body));
    call_start(after, before->kind);
    if (!take_pieces(body + WORD, body + length, before, after))
        return -1;
    complete(before, after);
    return 1;
}
