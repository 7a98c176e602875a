/* The master: its own chart with every update, and a shelf of those that it has published. */
#ifndef EZ_MASTER_H
#define EZ_MASTER_H

#include "fleet.h"

enum { MOST_UPDATES = 64 };

struct master {
    struct file dataset, updates[MOST_UPDATES];
    word count;
    struct display display;
    word first;                    /* the update number of the dataset */
    word hashes[MOST_UPDATES + 1]; /* of the chart after so many updates */
    word room;                     /* enough for each of these charts */
    word order[MOST_UPDATES];      /* in which the updates stand on the shelf */
    byte *shelf;
    word shelf_length;
};

/* The master begins with its dataset, and equips so many displays with the same chart. A status of the tool. */
int begun(struct master *master, struct display *displays, word count);

/* It takes every update in order, so that it is known what each number is to look like. A status of the tool. */
int rehearsed(struct master *master);

/* Makes room for a shelf, and draws the order of the updates on it. */
void shelved(struct master *master, word *random);

/* Puts the first so many updates on the shelf. */
void published(struct master *master, word count);

/* The parcel of the shelf that a holding is answered with, and its length; null for silence. */
byte *answered(const struct master *master, const byte *holding, word holding_length, word *length);

#endif
