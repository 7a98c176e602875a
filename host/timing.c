#include "timing.h"

/* A measurement ends after so many nanoseconds, once it has run at all. */
static const word PATIENCE = 3000000000;

/* Where a run takes so many, it is not done again to find a shorter one. */
static const word LONG = 500000000;

static word now(void) {
    struct timespec t;
    clock_gettime(PROCESSOR_TIME, &t);
    return (word)t.seconds * 1000000000 + (word)t.nanoseconds;
}

static word timed(job *work, void *desk) {
    word start = now();
    work(desk);
    return now() - start + 1;
}

/* How long a job takes; kept where no run of it was shorter. */
static word kept(job *work, void *desk, int run, word *shortest) {
    word took = timed(work, desk);
    if (run == 0 || took < *shortest) *shortest = took;
    return took;
}

void best(job *const *jobs, word count, void *desk, word *shortest) {
    word all = 0;
    for (int run = 0; run < RUNS && all < PATIENCE; run++)
        for (word i = 0; i < count; i++) all += kept(jobs[i], desk, run, shortest + i);
}

word best_of_few(job *work, void *desk) {
    word shortest = 0;
    for (int run = 0; run < FEW && shortest <= LONG; run++) kept(work, desk, run, &shortest);
    return shortest;
}

void best_prepared(job *before, job *const *jobs, word count, void *desk, word *shortest) {
    for (int run = 0; run < FEW; run++) {
        for (word i = 0; i < count; i++) {
            before(desk);
            kept(jobs[i], desk, run, shortest + i);
        }
    }
}

double milliseconds(word nanoseconds) {
    return (double)nanoseconds / 1e6;
}

double times(word one, word other) {
    return (double)one / (double)other;
}
