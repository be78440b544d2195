/* Lines of a table of counts. With no file nothing is printed: only the lines
 * that stand at 0 are counted. */
#ifndef LINES_H
#define LINES_H

#include <stdint.h>
#include <stdio.h>

void title(FILE *out, const char *text);

/* 1 if it stands at 0. */
int line(FILE *out, const char *name, uint64_t value);

/* So many lines, each with its number, from `first` on; gives how many of them
 * stand at 0. */
int lines(FILE *out, const char *format, uint32_t first,
          const uint64_t *values, uint32_t number);

/* The same for spans of numbers, each up to one of `ends`. */
int span_lines(FILE *out, const char *what, uint32_t first,
               const uint32_t *ends, const uint64_t *values, uint32_t number);

/* The span that this number is in; the last end is the largest there is. */
uint32_t span_of(const uint32_t *ends, uint32_t number);

#endif
