/* One whole call: every piece that it is handed, as bytes, and its answer. */
#ifndef CALL_H
#define CALL_H

#include <stddef.h>
#include <stdint.h>

enum call_kind {
    CALL_FRESH = 0, CALL_TURN = 1, CALL_FRESH_WITH = 2,
    CALL_FRESH_EDITION_2 = 3,
    CALL_KINDS
};

/* A turn takes those from DEVICE to REPORT; a making takes DEVICE, WINDOWS and
 * SPAN, the memory's length in 8 bytes; fresh_with and fresh_edition_2 LIMIT
 * too, and the latter FIRST, a word each. All leave an ANSWER of 4 bytes. */
enum call_piece {
    PIECE_DEVICE, PIECE_MEMORY,
    PIECE_RING, /* and three more */
    PIECE_PACK = PIECE_RING + 4, PIECE_PIPE, PIECE_REPORT,
    PIECE_WINDOWS, PIECE_SPAN, PIECE_LIMIT, PIECE_FIRST, PIECE_ANSWER,
    PIECES
};

enum {
    GUARD = 16,       /* bytes watched behind a piece */
    ROOM_BESIDE = 64, /* bytes that a piece may have more than a device takes */
    PIPE_ROOM_BESIDE = 1028
};

struct piece {
    const char *name;
    uint8_t *bytes; /* GUARD bytes stand behind the last */
    size_t length, most;
};

struct call {
    enum call_kind kind;
    int nulls; /* an empty piece is lent as NULL, not as its pointer */
    struct piece pieces[PIECES];
};

typedef uint32_t fresh_call(uint8_t *, size_t, const uint8_t *, size_t,
                            uint64_t);
typedef uint32_t fresh_with_call(uint8_t *, size_t, const uint8_t *, size_t,
                                 uint64_t, uint32_t);
typedef uint32_t fresh_edition_2_call(uint8_t *, size_t, const uint8_t *,
                                      size_t, uint64_t, uint32_t, uint32_t);
typedef uint32_t turn_call(uint8_t *, size_t, uint8_t *, size_t,
                           const uint8_t *, size_t, const uint8_t *, size_t,
                           const uint8_t *, size_t, const uint8_t *, size_t,
                           const uint8_t *, size_t, uint8_t *, size_t,
                           uint8_t *, size_t);

/* What a device offers. */
struct calls {
    fresh_call *fresh;
    fresh_with_call *fresh_with;
    fresh_edition_2_call *fresh_edition_2;
    turn_call *turn;
};

extern const struct calls independent; /* this device's */

/* A call whose pieces are all empty. Ends the program without memory. */
struct call *call_new(void);
void call_free(struct call *call);

/* A piece that has no room for its bytes ends the program: a call that was cut
 * would be another call, and refused by both sides alike. */

/* Gives a piece a length and zeros. */
void piece_zeros(struct piece *piece, size_t length);
/* Moves its end; its bytes up to there stand as they are. */
void piece_end(struct piece *piece, size_t length);
/* Adds bytes at its end. */
void piece_add(struct piece *piece, const uint8_t *bytes, size_t count);
void piece_add_word(struct piece *piece, uint32_t word);

/* Starts a call without nulls: device, report and answer have their lengths, a
 * turn's pack and pipe hold nothing, a making's windows, span, limit and first
 * are zeros. */
void call_start(struct call *call, enum call_kind kind);
void call_copy(struct call *to, const struct call *from);

/* Makes the call: the pieces are then as the call left them. */
void call_make(struct call *call, const struct calls *calls);

/* 1 if this piece is one that the call lends, and has no byte. */
int call_lends_empty(const struct call *call, int piece);

/* The first piece in which two calls are not the same, or -1. */
int call_difference(const struct call *a, const struct call *b);
extern const char *const piece_names[PIECES];

uint64_t call_span(const struct call *call);
uint32_t call_limit(const struct call *call);
uint32_t call_first(const struct call *call);
uint32_t call_answer(const struct call *call);

#endif
