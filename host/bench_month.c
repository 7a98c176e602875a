#include "bench.h"
#include "hash.h"
#include "invent.h"
#include "lists.h"
#include "timing.h"
#include "words.h"

enum { MEBIBYTE = 1048576, SPARE = 131072 };
enum { UPDATES = 30, RECORDS = 100 };

/* How many updates were applied, and the last answer. */
struct outcome {
    word applied, answer[EZDURVASH_NUMBERS];
};

/* What the jobs work on, and what came of it. */
struct desk {
    struct invented dataset, updates[UPDATES];
    byte *list;
    word list_length;
    struct outcome at_once, one_by_one;
};

static byte pools[2][EZDURVASH_LONGEST], work[EZDURVASH_WORKSPACE];

/* Both ways leave another chart in the first pool than they begin with. */
static void puts_back(void *at) {
    struct desk *desk = at;
    memcpy(pools[0], desk->dataset.bytes, desk->dataset.length);
}

static void applies_at_once(void *at) {
    struct desk *desk = at;
    word result[EZDURVASH_MONTH];
    ezdurvash_month(desk->list, desk->list_length, pools[0], EZDURVASH_LONGEST, desk->dataset.length, pools[1], EZDURVASH_LONGEST, work,
                    EZDURVASH_WORKSPACE, desk->at_once.answer, EZDURVASH_NUMBERS, result, EZDURVASH_MONTH);
    desk->at_once.applied = result[EZDURVASH_APPLIED];
}

static void applies_one_by_one(void *at) {
    struct desk *desk = at;
    struct outcome *outcome = &desk->one_by_one;
    word length = desk->dataset.length;
    for (outcome->applied = 0; outcome->applied < UPDATES; outcome->applied++) {
        const struct invented *update = desk->updates + outcome->applied;
        word from = outcome->applied % 2;
        word number = ezdurvash_update(pools[from], length, update->bytes, update->length, pools[1 - from], EZDURVASH_LONGEST, work,
                                       EZDURVASH_WORKSPACE, outcome->answer, EZDURVASH_NUMBERS);
        if (number != 0) return;
        length = outcome->answer[EZDURVASH_LENGTH];
    }
}

/* Lays out a dataset of so many bytes, its updates and their list; 0 where there is no memory for them. */
static int laid(struct desk *desk, word bytes) {
    desk->dataset = invented(bytes, 0);
    if (!desk->dataset.bytes) return 0;
    desk->list_length = 0;
    for (word i = 0; i < UPDATES; i++) {
        desk->updates[i] = invented_update(&desk->dataset, i + 1, RECORDS);
        if (!desk->updates[i].bytes) return 0;
        desk->list_length += LENGTH_BYTES + desk->updates[i].length;
    }
    byte *at = desk->list = malloc(desk->list_length);
    for (word i = 0; at && i < UPDATES; i++) at = put_in_list(at, desk->updates[i].bytes, desk->updates[i].length);
    return at != 0;
}

/* The hash of the pool with the chart that a job leaves, and the zeroes behind it. */
static word chart_left(job *applies, struct desk *desk) {
    puts_back(desk);
    applies(desk);
    return hash(pools[UPDATES % 2], EZDURVASH_LONGEST);
}

/* Whether all updates were applied, and both ways came to one answer and one chart; if not, it is said. */
static int good(struct desk *desk) {
    int one_chart = chart_left(applies_at_once, desk) == chart_left(applies_one_by_one, desk);
    int one_answer = memcmp(&desk->at_once, &desk->one_by_one, sizeof desk->at_once) == 0;
    word number = desk->at_once.answer[EZDURVASH_NUMBER];
    if (number == 0 && desk->at_once.applied == UPDATES && one_answer && one_chart) return 1;
    trouble("bench", number ? meaning(number) : "a month and its single updates do not come to the same");
    return 0;
}

int bench_month(word mebibytes) {
    static job *const JOBS[] = {applies_at_once, applies_one_by_one};
    static struct desk desk;
    word took[2];
    char bytes[DIGITS];
    if (!laid(&desk, mebibytes * MEBIBYTE - SPARE)) return trouble("bench", "there is no memory for the dataset and its updates");
    printf("a month of %d updates of %d records each on a sorted dataset of %s bytes, processor time, best of %d runs\n\n", UPDATES, RECORDS,
           counted(desk.dataset.length, bytes), FEW);
    printf("     at once   one by one    times\n");
    best_prepared(puts_back, JOBS, 2, &desk, took);
    printf("%9.1f ms %9.1f ms %8.2f\n", milliseconds(took[0]), milliseconds(took[1]), times(took[0], took[1]));
    printf("\nwanted: a month at most 0.6 of its single updates\n");
    return good(&desk) ? DONE : TROUBLE;
}
