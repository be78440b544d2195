/* The replay program: standard input in, lines out. */
#include "job.h"

int main(void)
{
    return ind_replay(stdin, stdout);
}
