/* Turns with no work: what a call costs by itself. */
#include "works.h"

void queue_idle(struct scene *scene, uint32_t turns)
{
    scene->turns = turns;
    scene->status = FV_IDLE;
}

/* Each ring has a command that waits, so all four are looked at. */
void queue_waiting(struct scene *scene, uint32_t turns)
{
    for (uint32_t q = 0; q < FV_RINGS; q++)
        need(fv_barrier(&scene->lent.rings[q], fv_wait(5, 1)), "a ring has no room");
    queue_idle(scene, turns);
}

void queue_barriers(struct scene *scene, uint32_t commands)
{
    for (uint32_t i = 0; i < commands; i++)
        need(fv_barrier(&scene->lent.rings[0], fv_none()), "a ring has no room");
    scene->turns = commands;
}
