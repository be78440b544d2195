/* What the replay job prints. */
#ifndef OUTPUTS_H
#define OUTPUTS_H

#include <stddef.h>

#include "cases/call.h"

struct text {
    char *bytes;
    size_t length;
    int ended; /* and not by a signal */
};

/* The independent device's output. */
struct text output_wanted(const struct piece *input);
void text_free(struct text *text);

/* Counts its lines; tells the counts of all outputs. */
void output_count(const struct text *text);
void outputs_print(void);

/* Tells how many had a served turn; 0 if too few had one. */
int outputs_enough(void);

#endif
