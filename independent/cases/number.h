/* A number handed to a program: decimal digits alone, below 2^64. */
#ifndef NUMBER_H
#define NUMBER_H

#include <stdint.h>

/* 1 and the number, or 0 if the text is none. */
int number_of(const char *text, uint64_t *number);

#endif
