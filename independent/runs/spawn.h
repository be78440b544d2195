/* A command run on an input: files hold what it reads and prints, so that
 * neither side waits for the other. */
#ifndef SPAWN_H
#define SPAWN_H

#include <sys/types.h>

#include "cases/call.h"
#include "runs/outputs.h"

struct run {
    uint64_t number; /* of the case */
    struct text wanted;
    pid_t pid;
    char in[64], out[64]; /* paths */
};

/* Makes the files' folder and the paths in it; 0 if it cannot. */
int runs_open(struct run *runs, int count);
void runs_close(struct run *runs, int count);

/* Starts the command; 0 if it cannot, errno tells why. */
int run_start(struct run *run, const struct piece *input, char **command);

/* Waits for its end and gives what it printed. */
struct text run_end(struct run *run);

#endif
