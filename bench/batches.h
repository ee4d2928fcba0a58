/* The processor time of a call, as the programs here take it; for one file of a program. */
#ifndef BATCHES_H
#define BATCHES_H

#include <time.h>

static double now(void)
{
    struct timespec t;
    clock_gettime(CLOCK_PROCESS_CPUTIME_ID, &t);
    return (double)t.tv_sec * 1e9 + (double)t.tv_nsec;
}

/* Nanoseconds of a call: the best of five batches of 20 ms or more each, or of two calls where one takes over a second. */
static double time_of(void (*f)(void))
{
    double start = now(), once, best;
    long calls, i, batch, batches;
    f();
    once = now() - start;
    calls = once < 20e6 ? (long)(20e6 / (once + 1)) + 1 : 1;
    batches = once > 1e9 ? 1 : 5;
    best = once;
    for (batch = 0; batch < batches; batch++) {
        start = now();
        for (i = 0; i < calls; i++)
            f();
        once = (now() - start) / (double)calls;
        if (once < best)
            best = once;
    }
    return best;
}

#endif
