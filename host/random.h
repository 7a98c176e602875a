/* A random source that a seed decides: the same numbers on every machine. */
#ifndef EZ_RANDOM_H
#define EZ_RANDOM_H

#include "system.h"

/* The next number; `state` is the seed before the first. */
word drawn(word *state);

/* From 0 to below the limit, which is at least 1. */
word below(word *state, word limit);

/* Puts numbers into another order. */
void shuffled(word *state, word *numbers, word count);

/* A number of 32 bits, another for each i below two to the 32nd: 1, 2, 3 .. give RCIDs in no order, the first million of them in range. */
word strewn(word i);

/* Which of 0 to count - 1 stands at place i of them in random order. */
word mixed(word i, word count);

#endif
