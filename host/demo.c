#include "demo.h"
#include "random.h"
#include "show.h"
#include "words.h"

/* ---- words */

static int wrong(const char *what) {
    trouble("demo", what);
    return 0;
}

/* A number at most so large, given as the word after an option. */
static int wish(const char *given, word most, word *number) {
    char *behind;
    if (!given || *given < '0' || *given > '9') return wrong("an option needs a number");
    *number = strtoul(given, &behind, 10);
    return *behind == 0 && *number <= most ? 1 : wrong("an option's number is out of its range");
}

/* Takes the options; how many words they are, or -1 for trouble. */
static int options(struct show *show, int count, char **words) {
    int at = 0, fine = 1;
    for (; at < count && words[at][0] == '-' && fine; at += 2) {
        const char *given = at + 1 < count ? words[at + 1] : 0;
        if (strcmp(words[at], "--seed") == 0) {
            fine = wish(given, ~0ul, &show->seed);
        } else if (strcmp(words[at], "--loss") == 0) {
            fine = wish(given, 100, &show->loss);
        } else if (strcmp(words[at], "--rounds") == 0) {
            fine = wish(given, 1000, &show->rounds);
        } else if (strcmp(words[at], "--samples") == 0 && given) {
            show->samples = given;
        } else {
            fine = wrong("its options are --seed N, --loss PERCENT and --rounds N");
        }
    }
    return fine ? at : -1;
}

/* ---- files */

/* Where file n goes: the dataset, then its updates. */
static struct file *place(struct show *show, word n) {
    return n == 0 ? &show->master.dataset : &show->master.updates[n - 1];
}

static int load_samples(struct show *show) {
    char path[4096];
    for (word n = 0; n < 3; n++) {
        snprintf(path, sizeof path, "%s/chart.00%lu", show->samples, n);
        if (!loaded(path, place(show, n))) return 0;
    }
    show->master.count = 2;
    return 1;
}

static int load_named(struct show *show, int count, char **paths) {
    if (count > MOST_UPDATES + 1) return wrong("64 updates are the most");
    for (int n = 0; n < count; n++)
        if (!loaded(paths[n], place(show, n))) return 0;
    show->master.count = (word)count - 1;
    return 1;
}

/* ---- the show */

/* Everyone takes a place. A status of the tool. */
static int begun_all(struct show *show) {
    show->random = show->seed;
    show->cable.random = &show->random;
    show->cable.loss = show->loss;
    show->colours = isatty(1);
    int status = begun(&show->master, show->displays, DISPLAYS);
    if (status == DONE) status = rehearsed(&show->master);
    if (status == DONE) shelved(&show->master, &show->random);
    return status;
}

int demo(int count, char **words) {
    static struct show show = {.seed = 1, .loss = 30, .rounds = 12, .samples = "samples"};
    int taken = options(&show, count, words);
    if (taken < 0) return TROUBLE;
    int there = taken == count ? load_samples(&show) : load_named(&show, count - taken, words + taken);
    if (!there) return TROUBLE;
    int status = begun_all(&show);
    if (status != DONE) return status;
    printf("a master, %d displays, and a cable that loses %lu parcels of 100 and delays and repeats some of the others; seed %lu\n", DISPLAYS,
           show.loss, show.seed);
    printf("in each round every display tells the number that it holds; the master answers with the update that follows, or is silent\n");
    for (word round = 1; round <= show.rounds; round++) played(&show, round);
    return judged(&show);
}
