/* Files that try to make the proved library slow: every one of them as a shape that fills so many bytes. */
#ifndef EZ_WORST_H
#define EZ_WORST_H

#include "pile.h"

/* The call that a shape is made for, and how long the `out` is that it is lent: the pool, exactly the result, a byte less, none. */
enum { READS, WRITES, UPDATES };
enum { POOL, EXACT, SHORT, NONE };

struct shape {
    const char *name; /* null behind the last of a list */
    int call, lent;
    void (*dataset)(struct pile *dataset);                   /* fills a dataset to read or write */
    void (*both)(struct pile *dataset, struct pile *update); /* fills a dataset and its update */
};

/* Datasets to read and to write; updates that name many records; updates that change much within few. */
extern const struct shape SHAPES_OF_DATASETS[], SHAPES_OF_UPDATES[], SHAPES_OF_EDITS[];

#endif
