/* A kernel in the making: what the files that write one share. */
#ifndef MAKER_H
#define MAKER_H

#include "cases/kernels/chance.h"
#include "device/parts.h"

/* Registers with a part of their own; the others are for values. */
enum {
    A_FIRST = 8, A_LAST = 11, /* addresses, whose numbers the maker knows */
    S_NUMBER = 12,            /* the thread's number in the dispatch */
    S_COUNTER = 21
};

struct maker {
    struct chance *c;
    uint32_t *code, words;
    uint32_t window;                 /* its length */
    uint32_t address[IND_REGISTERS]; /* what an address register holds */
    uint32_t bad;  /* so many in 1,000 accesses and branches go wrong */
    uint32_t back; /* and so many branches go back */
};

/* ---- maker.c: words and registers ---- */

void emit(struct maker *m, uint32_t word);
/* A register to read, one to write, a vector register. */
uint32_t source(struct maker *m);
uint32_t target(struct maker *m);
uint32_t vector(struct maker *m);
int32_t immediate(struct maker *m);
/* What a shift by a register has an edge at. */
uint32_t shift_amount(struct maker *m);
/* Any word into a register, by so many words at most. */
enum { CONSTANT_WORDS_MOST = 2 };
void emit_constant(struct maker *m, uint32_t rd, uint32_t value);

/* ---- rows.c: one instruction ---- */

/* One instruction of the list, with what it needs. */
void emit_row(struct maker *m, int row);
/* Any row but a branch and WFI. */
int row_without_branch(struct chance *c);
/* A place for an access of so many bytes: inside, at an end, or just past. */
uint32_t place_for(struct maker *m, uint32_t bytes);
uint32_t access_bytes(int row);

/* ---- blocks.c: the parts of a kernel ---- */

void emit_prologue(struct maker *m);
void emit_body(struct maker *m, int32_t parts);
/* Values to the window, then the end. */
void emit_epilogue(struct maker *m);

/* ---- observed.c ---- */

/* A few instructions, each with its result stored. */
void make_brief(struct maker *m);

/* ---- late.c ---- */

/* One thread of the dispatch stops, mostly not the first. */
void make_late(struct maker *m, uint32_t limit);

#endif
