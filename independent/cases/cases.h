/* Whole calls from a seed: case n of a seed is the same on every machine, and
 * can be drawn alone. */
#ifndef CASES_H
#define CASES_H

#include "cases/call.h"

enum case_kind {
    CASE_FRESH,      /* a call of fresh, fresh_with or fresh_edition_2 */
    CASE_STRUCTURED, /* a turn in the middle of a device's life */
    CASE_EDGED,      /* a turn at one or several edges */
    CASE_DAMAGED,    /* any of these with bytes changed, or any bytes */
    CASE_KINDS
};

extern const char *const case_names[CASE_KINDS];

enum case_kind draw_case(struct call *call, uint64_t seed, uint64_t number);

/* Rarely gives an image, a report or windows the wrong length; draws from
 * numbers of its own, so that the case stays the same otherwise. */
void draw_lengths(struct call *call, uint64_t seed, uint64_t number);

#endif
