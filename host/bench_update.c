#include "bench.h"
#include "invent.h"
#include "timing.h"
#include "words.h"

enum { MEBIBYTE = 1048576, SPARE = 131072 };

/* What a job works on, and where it writes. */
struct desk {
    struct invented dataset, update;
    word answer[EZDURVASH_NUMBERS];
};

static byte out[EZDURVASH_LONGEST], work[EZDURVASH_WORKSPACE];

static void reads(void *at) {
    struct desk *desk = at;
    word answer[EZDURVASH_NUMBERS];
    ezdurvash_read(desk->dataset.bytes, desk->dataset.length, answer, EZDURVASH_NUMBERS);
}

static void updates(void *at) {
    struct desk *desk = at;
    ezdurvash_update(desk->dataset.bytes, desk->dataset.length, desk->update.bytes, desk->update.length, out, EZDURVASH_LONGEST,
                     work, EZDURVASH_WORKSPACE, desk->answer, EZDURVASH_NUMBERS);
}

/* Whether the last update was accepted; if not, it is said. */
static int accepted(const struct desk *desk) {
    word number = desk->answer[EZDURVASH_NUMBER];
    if (number != 0) trouble("bench", meaning(number));
    return number == 0;
}

/* One line of the table: an update of so many records. */
static int update_line(struct desk *desk, word records) {
    static job *const JOBS[] = {reads, updates};
    word took[2];
    char changes[DIGITS];
    desk->update = invented_update(&desk->dataset, 1, records);
    if (!desk->update.bytes) {
        trouble("bench", "there is no memory for the update");
        return 0;
    }
    best(JOBS, 2, desk, took);
    printf("%14s %9.1f ms %9.1f ms %8.2f\n", counted(records, changes), milliseconds(took[1]), milliseconds(took[0]),
           times(took[1], took[0]));
    fflush(0);
    free(desk->update.bytes);
    return accepted(desk);
}

int bench_update(word mebibytes) {
    struct desk desk;
    char bytes[DIGITS];
    desk.dataset = invented(mebibytes * MEBIBYTE - SPARE, 0);
    if (!desk.dataset.bytes) return trouble("bench", "there is no memory for the dataset");
    printf("update of a sorted dataset of %s bytes against read of it, processor time, best of %d runs\n\n",
           counted(desk.dataset.length, bytes), RUNS);
    printf("update records       update         read    times\n");
    for (word records = 1; records <= 1000 && records * 67 <= desk.dataset.records; records *= 10)
        if (!update_line(&desk, records)) return TROUBLE;
    return DONE;
}
