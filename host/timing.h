/* How long jobs take. */
#ifndef EZ_TIMING_H
#define EZ_TIMING_H

#include "system.h"

enum { RUNS = 15, FEW = 3 };

typedef void job(void *desk);

/* The shortest processor times of several runs of each job in nanoseconds, at least 1. The jobs take turns, so that what slows the
   machine for a while slows all of them. Where they take long, there are fewer runs. */
void best(job *const *jobs, word count, void *desk, word *shortest);

/* The shortest of few runs of one job; of one run where that takes more than half a second. */
word best_of_few(job *work, void *desk);

/* The shortest of few runs of each job, taking turns, with another job before every run whose time does not count. */
void best_prepared(job *before, job *const *jobs, word count, void *desk, word *shortest);

double milliseconds(word nanoseconds);

/* How many times the one is the other. */
double times(word one, word other);

#endif
