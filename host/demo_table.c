#include "show.h"
#include "words.h"

/* Colours, only where a terminal shows them. */
static const char *const PLAIN = "\033[0m", *const BOLD = "\033[1m", *const FAINT = "\033[2m", *const GREEN = "\033[32m",
                         *const YELLOW = "\033[33m";

static const char *tint(const struct show *show, const char *colour) {
    return show->colours ? colour : "";
}

/* ---- a round */

void show_head(const struct show *show, word round, word newest) {
    printf("\n%sround %lu of %lu%s: the updates up to number %lu are on the master's shelf\n", tint(show, BOLD), round, show->rounds,
           tint(show, PLAIN), newest);
    printf(" display    told  number       bytes  hash    what came of it\n");
}

/* A parcel that a display took. */
static void show_taken(const struct show *show, const struct outcome *one) {
    printf("%supdate %lu ", one->how, one->update);
    if (one->number == 0) {
        printf("%saccepted%s\n", tint(show, GREEN), tint(show, PLAIN));
    } else {
        printf("%srefused: %lu, %s%s\n", tint(show, YELLOW), one->number, meaning(one->number), tint(show, PLAIN));
    }
}

static void show_outcome(const struct show *show, const struct outcome *one) {
    static const char *const WORDS[] = {
        [HOLDING_LOST] = "holding lost", [HOLDING_LATE] = "holding delayed", [SILENCE] = "silence",
        [ANSWER_LOST] = "answer lost",   [ANSWER_LATE] = "answer delayed"};
    if (one->what == TAKEN) {
        show_taken(show, one);
    } else {
        printf("%s%s%s%s\n", tint(show, FAINT), one->how, WORDS[one->what], tint(show, PLAIN));
    }
}

/* The first outcome stands behind what the display holds at the end of the round, the others below it. */
void show_display(const struct show *show, word d, const struct seen *seen) {
    const struct display *display = &show->displays[d];
    char bytes[DIGITS];
    printf("%8lu %7lu %s%7lu%s %11s  %06lx  ", d + 1, seen->told, tint(show, BOLD), shown_number(display), tint(show, PLAIN),
           counted(display->chart[EZDURVASH_CHART_LENGTH], bytes), shown_hash(display) >> 40);
    for (word i = 0; i < seen->count; i++) {
        if (i > 0) printf("%46s", "");
        show_outcome(show, seen->outcomes + i);
    }
}

/* ---- the end */

/* How many displays show this many updates; -1 where one of them holds another chart than the master had. */
static int holders(const struct show *show, word updates) {
    int found = 0;
    for (word d = 0; d < DISPLAYS; d++) {
        if (shown_number(&show->displays[d]) != show->master.first + updates) continue;
        if (shown_hash(&show->displays[d]) != show->master.hashes[updates]) return -1;
        found++;
    }
    return found;
}

/* The displays of each number, and how many are placed so; -1 where two of one number differ. Those of the last number are the newest. */
static int placed(const struct show *show, int *newest) {
    int all = 0;
    for (word updates = 0; updates <= show->master.count; updates++) {
        word number = show->master.first + updates;
        int found = *newest = holders(show, updates);
        if (found < 0) {
            printf("number %lu: two displays hold DIFFERENT charts\n", number);
            return -1;
        }
        all += found;
        if (found > 0)
            printf("number %lu: %d display%s, hash %06lx\n", number, found, found == 1 ? "" : "s", show->master.hashes[updates] >> 40);
    }
    return all;
}

int judged(const struct show *show) {
    int newest;
    printf("\n");
    int all = placed(show, &newest);
    if (all < 0) return REFUSED;
    if (all != DISPLAYS) {
        printf("a display shows a number that NO update has\n");
        return REFUSED;
    }
    printf("%d of %d displays hold the newest number, %lu\n", newest, DISPLAYS, show->master.first + show->master.count);
    printf("%sall displays with one number have one hash, the master's%s\n", tint(show, GREEN), tint(show, PLAIN));
    return DONE;
}
