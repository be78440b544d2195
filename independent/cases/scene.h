/* A turn in the making: the device as numbers, its lent pieces as bytes. */
#ifndef SCENE_H
#define SCENE_H

#include "cases/call.h"
#include "cases/kernels/styles.h"
#include "device/device.h"

/* What a ring's head command is. */
enum head {
    HEAD_READY,   /* whole, and waits for nothing that is not there */
    HEAD_WAITING, /* whole, and waits */
    HEAD_CUT,     /* not whole */
    HEAD_NONE     /* the cursor stands at the ring's end */
};

struct scene {
    struct chance *c;
    struct call *call;
    struct ind_device device;
    uint32_t memory_len;
    uint32_t odd; /* so many of 1,000 numbers lie at an edge */

    /* Wishes; ANY leaves them open. */
    int opcode; /* of the command that will be served */
    int style;  /* of the kernel that it runs */
    int len;    /* of a transfer */
    int full;   /* so many of 1,000 slots in use are full, or one below it */
    int waits;  /* so many of 1,000 commands wait, for slots at an edge */
    int overlap; /* so many of 1,000 copies have sides that lie close */

    uint32_t edged; /* so many of 1,000 targets lie at an edge; 0: none */

    enum head heads[IND_RINGS];
    uint32_t lead;  /* the ring that will be served, if one is */
    uint32_t slots; /* most commands use one of so many */

    /* The pack: parts of its code, then `own` kernels made for a ring each (the
     * only one for the leading ring), then a probe for each ring or none. */
    uint32_t kernels, own, probes;
    uint32_t threads[IND_RINGS]; /* so many may run it and not take too long */
};

enum { ANY = -1 };

/* An empty scene: a fresh device of empty windows, no wishes. */
void scene_start(struct scene *s, struct call *call, struct chance *c,
                 uint32_t odd);

/* Memory, windows, edition, slots, marker, limit, counts and frames; 0 for any
 * length of memory. */
void draw_state(struct scene *s, uint32_t memory_len);
/* Parts of it. A window lies inside the memory. */
void draw_memory(struct scene *s, uint32_t length);
/* Different words all over it: among equal ones no copy shows its order. */
void mix_memory(struct scene *s);
void draw_window(struct scene *s, uint32_t ring);

/* A frame that SET_FB would take, or none in an empty window. */
struct ind_frame draw_frame(struct scene *s, uint32_t window_length);

/* A pack with so many kernels of a ring's own (0, 1 or 4) and s->probes. */
void draw_kernels(struct scene *s, uint32_t own);
/* A kernel whose outcome, 0 or 11 to 13, hangs on all words of the window;
 * gives its words. */
uint32_t make_probe(uint32_t *code, uint32_t window_length);

/* A pipe that is long enough. Something stands at its front for a READ_MEM, and
 * often for another command. */
void draw_pipe(struct scene *s);

/* Writes the device into the call. */
void scene_done(struct scene *s);

/* True in s->odd of 1,000 cases. */
int odd(struct scene *s);

#endif
