#include "fleet.h"
#include "hash.h"
#include "packing.h"
#include "words.h"

static byte work[EZDURVASH_WORKSPACE];

/* Gives a display its pools. */
static void furnish(struct display *display) {
    for (int i = 0; i < 2; i++) {
        display->pools[i] = malloc(EZDURVASH_LONGEST);
        if (!display->pools[i]) exit(trouble("demo", "there is no memory for the charts"));
    }
    display->chart[EZDURVASH_PLACE] = 0;
    display->room = EZDURVASH_LONGEST;
    display->work = EZDURVASH_WORKSPACE;
}

static const byte *chart_of(const struct display *display) {
    return display->pools[display->chart[EZDURVASH_PLACE]];
}

word started(struct display *display, const struct file *dataset, word answer[EZDURVASH_NUMBERS]) {
    furnish(display);
    return ezdurvash_begin(dataset->bytes, dataset->length, display->pools[0], EZDURVASH_LONGEST, answer, EZDURVASH_NUMBERS, display->chart,
                           EZDURVASH_CHART);
}

void equipped(struct display *display, const struct display *other) {
    furnish(display);
    display->chart[EZDURVASH_CHART_LENGTH] = other->chart[EZDURVASH_CHART_LENGTH];
    memcpy(display->pools[0], chart_of(other), other->chart[EZDURVASH_CHART_LENGTH]);
}

/* Hands a display a file, or a parcel by the call that takes one. */
static word given(struct display *display, const byte *bytes, word length, int parcel, word answer[EZDURVASH_NUMBERS]) {
    word place = display->chart[EZDURVASH_PLACE], lent[2] = {EZDURVASH_LONGEST, EZDURVASH_LONGEST};
    lent[1 - place] = display->room;
    return (parcel ? ezdurvash_take : ezdurvash_hand)(place, display->chart[EZDURVASH_CHART_LENGTH], display->pools[0], lent[0],
                                                      display->pools[1], lent[1], bytes, length, work, display->work, answer,
                                                      EZDURVASH_NUMBERS, display->chart, EZDURVASH_CHART);
}

word handed(struct display *display, const struct file *update, word answer[EZDURVASH_NUMBERS]) {
    return given(display, update->bytes, update->length, 0, answer);
}

word took(struct display *display, const byte *parcel, word length, word answer[EZDURVASH_NUMBERS]) {
    return given(display, parcel, length, 1, answer);
}

word told(const struct display *display, byte holding[EZDURVASH_HOLDING_LONGEST]) {
    word answer[EZDURVASH_NUMBERS];
    word number = ezdurvash_tell(chart_of(display), display->chart[EZDURVASH_CHART_LENGTH], holding, EZDURVASH_HOLDING_LONGEST, answer,
                                 EZDURVASH_NUMBERS);
    if (number != 0) exit(trouble("a display cannot tell what it holds", meaning(number)));
    return answer[EZDURVASH_LENGTH];
}

word shown_number(const struct display *display) {
    static byte holding[EZDURVASH_HOLDING_LONGEST];
    told(display, holding);
    return number_told(holding);
}

word shown_hash(const struct display *display) {
    return hash(chart_of(display), display->chart[EZDURVASH_CHART_LENGTH]);
}
