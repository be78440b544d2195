/* The measured kernels' shape: a lead, a loop over a body, and WFI. */
#ifndef KERNELS_H
#define KERNELS_H

enum {
    LOOPS = 50,
    LEAD = 4,
    BODY = 5,
    TAIL = 3,                                   /* count down, branch, WFI */
    THREAD_STEPS = LEAD + LOOPS * (BODY + 2) + 1
};

#endif
