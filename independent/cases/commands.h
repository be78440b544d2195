/* Commands for a scene: mostly sensible, with numbers at an edge now and then,
 * several in one command if the scene is odd enough. */
#ifndef COMMANDS_H
#define COMMANDS_H

#include "cases/scene.h"
#include "device/parts.h"

/* A command for this ring that waits for nothing that is not there. */
struct ind_command draw_command(struct scene *s, uint32_t ring, int opcode);

/* Makes it wait for what its slot does not meet; 0 if no slot can: all are
 * full, in edition 1. */
int make_wait(struct scene *s, struct ind_command *command);

/* Gives it one or more faults of its header. */
void spoil_header(struct scene *s, struct ind_command *command);

/* Adds its bytes to the ring, with any payload; gives their number. */
uint32_t add_command(struct scene *s, uint32_t ring,
                     const struct ind_command *command);

/* Cursors, head commands and what stands behind them, for all four rings. */
void draw_rings(struct scene *s);

#endif
