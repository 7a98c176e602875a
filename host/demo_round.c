#include "packing.h"
#include "show.h"

/* How long a terminal shows a round, in microseconds. */
enum { PAUSE = 350000 };

/* How many updates the master has published by this round: all by the middle of the show. */
static word published_by(const struct show *show, word round) {
    word count = show->master.count, due = (2 * round * count + show->rounds - 1) / show->rounds;
    return due < count ? due : count;
}

/* In the first half two displays have a slice a byte shorter than their chart, and one has too small a workspace. */
static void furnished(struct show *show, word round) {
    int early = 2 * round <= show->rounds;
    for (word d = 0; d < DISPLAYS; d++) {
        struct display *display = &show->displays[d];
        display->room = early && (d == 3 || d == 7) ? display->chart[EZDURVASH_CHART_LENGTH] - 1 : show->master.room;
        display->work = early && d == 10 ? EZDURVASH_WORKSPACE - 1 : EZDURVASH_WORKSPACE;
    }
}

static void noted(struct seen *seen, const struct parcel *parcel, int what, word number) {
    if (seen->count == MOST_OUTCOMES) return;
    struct outcome one = {parcel->how, what, parcel->update, number};
    seen->outcomes[seen->count++] = one;
}

/* A display tells what it holds. */
static void tells(struct show *show, word d, word round, struct seen *seen) {
    static byte bytes[EZDURVASH_HOLDING_LONGEST];
    struct parcel holding = {.bytes = bytes, .length = told(&show->displays[d], bytes), .display = d, .to_master = 1, .how = ""};
    seen->told = number_told(bytes);
    int fate = sent(&show->cable, &holding, round);
    if (fate != IN_TIME) noted(seen, &holding, fate == LOST ? HOLDING_LOST : HOLDING_LATE, 0);
}

/* The master answers a holding, or is silent. What follows a holding has its number plus one. */
static void answers(struct show *show, const struct parcel *holding, word round, struct seen *seen) {
    struct parcel answer = {.display = holding->display, .update = number_told(holding->bytes) + 1, .how = holding->how};
    answer.bytes = answered(&show->master, holding->bytes, holding->length, &answer.length);
    if (!answer.bytes) {
        noted(seen, holding, SILENCE, 0);
        return;
    }
    int fate = sent(&show->cable, &answer, round);
    if (fate != IN_TIME) noted(seen, &answer, fate == LOST ? ANSWER_LOST : ANSWER_LATE, 0);
}

static void takes(struct show *show, const struct parcel *answer, struct seen *seen) {
    word numbers[EZDURVASH_NUMBERS];
    noted(seen, answer, TAKEN, took(&show->displays[answer->display], answer->bytes, answer->length, numbers));
}

/* All that a display has part in. Displays know nothing of each other, and the shelf stays as it is for a round: so one goes after the other. */
static void exchanged(struct show *show, word d, word round, struct seen *seen) {
    struct parcel parcel;
    seen->count = 0;
    tells(show, d, round, seen);
    while (arrived(&show->cable, d, round, &parcel)) {
        if (parcel.to_master) {
            answers(show, &parcel, round, seen);
        } else {
            takes(show, &parcel, seen);
        }
        free(parcel.bytes);
    }
}

void played(struct show *show, word round) {
    struct seen seen;
    word newest = published_by(show, round);
    published(&show->master, newest);
    furnished(show, round);
    show_head(show, round, show->master.first + newest);
    for (word d = 0; d < DISPLAYS; d++) {
        exchanged(show, d, round, &seen);
        show_display(show, d, &seen);
    }
    fflush(0);
    if (show->colours) usleep(PAUSE);
}
