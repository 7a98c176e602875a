/* The bridge cable: parcels under way between a master and its displays. It loses some, delays some, and brings some twice. */
#ifndef EZ_CABLE_H
#define EZ_CABLE_H

#include "system.h"

struct parcel {
    byte *bytes;
    word length;
    word display;    /* the one that told it, or that it is for */
    int to_master;   /* a holding; else an update for a display */
    word update;     /* the number of that update */
    const char *how; /* how it comes, in words; none where everything was in time */
};

/* Enough for twelve displays that tell once a round, with all that can be late or come again; any more would be lost. */
enum { MOST_UNDER_WAY = 1024 };

struct cable {
    word *random;
    word loss; /* so many of 100 parcels */
    word count;
    struct parcel parcels[MOST_UNDER_WAY];
    word rounds[MOST_UNDER_WAY]; /* in which each arrives */
};

/* What becomes of a parcel: it arrives in the round in which it is sent, or one or two rounds later, or never. */
enum { IN_TIME, LATE, LOST };

/* Puts a copy of a parcel on the cable, or a second one too, which arrives in the same round as the first or in the next. */
int sent(struct cable *cable, const struct parcel *parcel, word round);

/* Takes a parcel from or for this display off the cable that arrives in this round, the one sent first; its bytes are to be freed. 0 where
   there is none. */
int arrived(struct cable *cable, word display, word round, struct parcel *parcel);

#endif
