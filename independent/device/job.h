/* The replay job over the independent device. */
#ifndef IND_JOB_H
#define IND_JOB_H

#include <stdint.h>
#include <stdio.h>

/* Reads one job from `in` and prints its lines to `out`.
 * Gives 0, or 1 if a file could not be read or written. */
int ind_replay(FILE *in, FILE *out);

/* The same for an input that is at hand. */
int ind_replay_bytes(const uint8_t *input, size_t length, FILE *out);

enum { IND_INPUT_MOST = 61440, IND_JOB_WORDS_MOST = 4096 };

#endif
