/* Displays: each has two pools of 16 MiB, one of which holds its chart; handed an update, or a parcel with one, the result is built in the
   other. */
#ifndef EZ_FLEET_H
#define EZ_FLEET_H

#include "ezdurvash.h"
#include "files.h"

struct display {
    byte *pools[2];
    word chart[EZDURVASH_CHART]; /* which pool holds the chart, and how long that is */
    word room, work;             /* what it lends for a result: so much of the other pool, and a workspace */
};

/* A display that holds the written form of a dataset; the number of the refusal, 0 for done. */
word started(struct display *display, const struct file *dataset, word answer[EZDURVASH_NUMBERS]);

/* A display that holds the same chart as another in pools of its own. */
void equipped(struct display *display, const struct display *other);

/* Hands a display an update, and a parcel with one; the number of the refusal, 0 for done. */
word handed(struct display *display, const struct file *update, word answer[EZDURVASH_NUMBERS]);
word took(struct display *display, const byte *parcel, word length, word answer[EZDURVASH_NUMBERS]);

/* Tells what a display holds; the holding's length. */
word told(const struct display *display, byte holding[EZDURVASH_HOLDING_LONGEST]);

/* The update number of a display's chart, as it tells it, and a hash of the chart. */
word shown_number(const struct display *display);
word shown_hash(const struct display *display);

#endif
