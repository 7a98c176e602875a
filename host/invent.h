/* Large datasets for measuring, and updates of them: the same bytes from the same wishes. */
#ifndef EZ_INVENT_H
#define EZ_INVENT_H

#include "system.h"

/* What is not as in a chart of the trade, whose RCIDs ascend without gaps and are named in their order. */
enum { MIXED_KEYS = 1, MIXED_REFERENCES = 2, STREWN_KEYS = 4 };

struct invented {
    byte *bytes;
    word length, records;
};

/* A dataset of exactly so many bytes in written form, at least 65,536: of 67 records 32 are points, 32 features with attributes, an
   association and a spatial association, two are information types and one is a multi point. Null bytes where there is no memory. */
struct invented invented(word length, int wishes);

/* The update of this number, from 1, of such a dataset without wishes: so many records, in turn a feature modified, a point inserted, a
   point that nobody names deleted, spread over the whole dataset, which has at least 30 times as many. Updates of as many records follow
   each other: a later one modifies the same features, and deletes the points that the one before inserted. Null bytes where there is no
   memory. */
struct invented invented_update(const struct invented *dataset, word number, word records);

#endif
