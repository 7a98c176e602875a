/* The show of `ez demo`: a master and twelve displays that speak by parcels. */
#ifndef EZ_SHOW_H
#define EZ_SHOW_H

#include "cable.h"
#include "master.h"

enum { DISPLAYS = 12 };

struct show {
    word seed, random, loss, rounds;
    const char *samples;
    struct master master;
    struct cable cable;
    struct display displays[DISPLAYS];
    int colours;
};

/* What came of a holding that was told, or of an answer that was on its way; of one that was taken the number of its refusal, or 0. */
enum { HOLDING_LOST, HOLDING_LATE, SILENCE, ANSWER_LOST, ANSWER_LATE, TAKEN };
struct outcome {
    const char *how; /* of the parcel, in words */
    int what;
    word update, number;
};

/* What there is to see of a display in a round: the number that it told, and what came of that and of what was under way.
   There are never as many outcomes. */
enum { MOST_OUTCOMES = 128 };
struct seen {
    word told, count;
    struct outcome outcomes[MOST_OUTCOMES];
};

/* Plays a round. */
void played(struct show *show, word round);

/* The head of a round's table, the lines of a display in it, and the end of the show: a status of the tool, REFUSED where a display holds
   another chart than the master had under its number. */
void show_head(const struct show *show, word round, word newest);
void show_display(const struct show *show, word d, const struct seen *seen);
int judged(const struct show *show);

#endif
