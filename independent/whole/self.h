/* What self.c, editions.c, stops.c, copies.c and lanes.c share: a turn in the
 * archive's place. */
#ifndef SELF_H
#define SELF_H

#include "device/image.h"
#include "device/parts.h"

#ifndef MUTANT
#define MUTANT 0
#endif

/* A turn's pieces, after it and its image before it. */
struct turned {
    uint8_t before[IND_IMAGE_BYTES], *device, *memory, *pipe, *report;
    size_t memory_len, pipe_len;
    const uint8_t *const *ring, *pack;
    const size_t *ring_len;
    size_t pack_len;
    uint32_t answer;
};

/* Before a turn: the edition in the image, and the rings' heads, become what a
 * wrong rule takes them for. */
void misread_edition(uint8_t *image);
void misjudge_waits(const uint8_t *image, const uint8_t *ring[IND_RINGS],
                    size_t ring_len[IND_RINGS]);

/* The memory that a turn was handed. */
extern uint8_t memory_before[IND_MEMORY_MOST];

/* What a served turn took from its ring. */
struct taken {
    struct ind_ring ring; /* before it */
    struct ind_command command;
    struct ind_report report;
    uint32_t limit;
};

struct taken taken_by(const struct turned *t);

/* Whether it was a dispatch that ran. */
int ran(const struct turned *t);

/* Errors of a turn, after it; of copies and lanes, of one that was served. */
void err_edition(struct turned *t);
void err_stops(struct turned *t);
void err_copies(struct turned *t);
void err_lanes(struct turned *t);

/* Errors of a making of edition 1, after it. */
void err_edition_1_made(uint8_t *device, uint32_t answer);

#endif
