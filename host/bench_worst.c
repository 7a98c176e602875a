#include "bench.h"
#include "invent.h"
#include "timing.h"
#include "words.h"
#include "worst.h"

enum { PARTS = 3, LINES = 128 };

/* What is wanted of every shape: so many times the ordinary read, so many milliseconds for the longest file, so much growth for twice the bytes. */
static const double MOST_TIMES = 30, MOST_MILLISECONDS = 1000, MOST_GROWTH = 2.3;

/* No larger part is tried where this one took so many nanoseconds. */
static const word LONG = 6000000000;

/* What a job works on, and where it writes. */
struct desk {
    const struct shape *shape;
    struct pile dataset, update;
    word room;
    word answer[EZDURVASH_NUMBERS];
};

/* How a shape fared: its times for a quarter, a half and all, 0 where it was not tried; and how many times the ordinary read that is. */
struct fared {
    const struct shape *shape;
    word took[PARTS];
    double most_times;
};

static const char *const CALLS[] = {"read", "write", "update"};

static byte dataset[EZDURVASH_LONGEST], update[EZDURVASH_LONGEST], out[EZDURVASH_LONGEST], work[EZDURVASH_WORKSPACE];

static void calls(void *at) {
    struct desk *desk = at;
    if (desk->shape->call == READS) ezdurvash_read(dataset, desk->dataset.length, desk->answer, EZDURVASH_NUMBERS);
    if (desk->shape->call == WRITES)
        ezdurvash_write(dataset, desk->dataset.length, out, desk->room, desk->answer, EZDURVASH_NUMBERS);
    if (desk->shape->call == UPDATES)
        ezdurvash_update(dataset, desk->dataset.length, update, desk->update.length, out, desk->room, work, EZDURVASH_WORKSPACE,
                         desk->answer, EZDURVASH_NUMBERS);
}

/* Whether the answer is the one that is meant: 13 where the shape wants it, else done; if not, it is said. */
static int as_meant(const struct desk *desk, int lent) {
    char what[200];
    word number = desk->answer[EZDURVASH_NUMBER], meant = lent == SHORT || lent == NONE ? 13 : 0;
    if (number == meant) return 1;
    snprintf(what, sizeof what, "%s, %s: answered with %lu (%s), file %lu, record %lu", CALLS[desk->shape->call], desk->shape->name, number,
             meaning(number), desk->answer[EZDURVASH_FILE], desk->answer[EZDURVASH_RECORD]);
    trouble("bench", what);
    return 0;
}

/* How much of `out` is lent. Where that depends on the result's length, the call is made once to know it; 0 where it is refused. */
static int room_found(struct desk *desk) {
    int lent = desk->shape->lent;
    desk->room = lent == NONE ? 0 : EZDURVASH_LONGEST;
    if (lent != EXACT && lent != SHORT) return 1;
    calls(desk);
    desk->room = desk->answer[EZDURVASH_LENGTH] - (lent == SHORT);
    return as_meant(desk, POOL);
}

/* Lays a shape out over so many bytes; an update has half of them. */
static void laid_out(struct desk *desk, word bytes) {
    word changes = desk->shape->call == UPDATES ? bytes / 2 : 0;
    desk->dataset.bytes = dataset;
    desk->dataset.room = bytes - changes;
    desk->update.bytes = update;
    desk->update.room = changes;
    desk->update.length = 0;
    dataset_begun(&desk->dataset);
    if (changes == 0) {
        desk->shape->dataset(&desk->dataset);
    } else {
        update_begun(&desk->update);
        desk->shape->both(&desk->dataset, &desk->update);
    }
}

/* The time of a shape over so many bytes, and how many times the ordinary read it is; 0 where it is answered otherwise than meant. */
static word tried(struct desk *desk, word bytes, word ordinary, double *many) {
    laid_out(desk, bytes);
    if (!room_found(desk)) return 0;
    word took = best_of_few(calls, desk), handed = desk->dataset.length + desk->update.length;
    *many = times(took, ordinary) * (double)bytes / (double)handed;
    return as_meant(desk, desk->shape->lent) ? took : 0;
}

static double growth(const struct fared *f) {
    return times(f->took[2], f->took[1]);
}

/* How many milliseconds are wanted for so many bytes. */
static double most_milliseconds(word bytes) {
    return MOST_MILLISECONDS * (double)bytes / EZDURVASH_LONGEST;
}

/* Whether a shape over so many bytes is above what is wanted. */
static int above(const struct fared *f, word bytes) {
    return f->took[2] == 0 || f->most_times > MOST_TIMES || milliseconds(f->took[2]) > most_milliseconds(bytes) || growth(f) > MOST_GROWTH;
}

/* How many of the bytes a part has: a quarter, a half, all. */
static word part_of(word bytes, int part) {
    return bytes >> (PARTS - 1 - part);
}

/* One line of the table; 0 where a shape is answered otherwise than meant. */
static int worst_line(struct fared *f, word bytes, const word ordinary[PARTS]) {
    struct desk desk = {.shape = f->shape};
    double many = 0;
    f->most_times = 0;
    printf("%-6s %-54s", CALLS[f->shape->call], f->shape->name);
    for (int part = 0; part < PARTS; part++) {
        f->took[part] = 0;
        if (part > 0 && (f->took[part - 1] == 0 || f->took[part - 1] > LONG)) {
            printf(" %12s", "not tried");
            continue;
        }
        f->took[part] = tried(&desk, part_of(bytes, part), ordinary[part], &many);
        if (f->took[part] == 0) return 0;
        if (many > f->most_times) f->most_times = many;
        printf(" %9.1f ms", milliseconds(f->took[part]));
        fflush(0);
    }
    printf(" %8.1f", f->most_times);
    if (f->took[2] > 0) printf(" %8.2f", growth(f));
    printf("%s\n", above(f, bytes) ? "  *" : "");
    fflush(0);
    return 1;
}

/* The lines of all shapes whose names have these words; how many there are goes into `count`. 0 where one is answered otherwise than meant. */
static int worst_lines(struct fared *all, word *count, word bytes, const char *words, const word ordinary[PARTS]) {
    static const struct shape *const LISTS[] = {SHAPES_OF_DATASETS, SHAPES_OF_UPDATES, SHAPES_OF_EDITS};
    *count = 0;
    for (word list = 0; list < sizeof LISTS / sizeof *LISTS; list++) {
        for (const struct shape *shape = LISTS[list]; shape->name; shape++) {
            if (!strstr(shape->name, words)) continue;
            all[*count].shape = shape;
            if (!worst_line(all + (*count)++, bytes, ordinary)) return 0;
        }
    }
    return 1;
}

static void reads(void *at) {
    struct desk *desk = at;
    ezdurvash_read(dataset, desk->dataset.length, desk->answer, EZDURVASH_NUMBERS);
}

/* The ordinary read of a quarter, a half and all of the bytes; 0 for trouble. */
static int ordinary_line(word bytes, word ordinary[PARTS]) {
    static job *const JOBS[] = {reads};
    struct desk desk;
    printf("%-61s", "read   a sorted dataset: the ordinary read");
    for (int part = 0; part < PARTS; part++) {
        struct invented sorted = invented(part_of(bytes, part), 0);
        if (!sorted.bytes) return 0;
        memcpy(dataset, sorted.bytes, sorted.length);
        desk.dataset.length = sorted.length;
        free(sorted.bytes);
        best(JOBS, 1, &desk, ordinary + part);
        if (desk.answer[EZDURVASH_NUMBER] != 0) return 0;
        printf(" %9.1f ms", milliseconds(ordinary[part]));
    }
    printf(" %8.1f %8.2f\n", 1.0, times(ordinary[2], ordinary[1]));
    return 1;
}

/* What is wanted, and which lines are above it. */
static void summed_up(const struct fared *all, word count, word bytes) {
    word many = 0;
    printf("\nwanted: at most %.0f times the ordinary read of as many bytes, at most %.0f ms for all of them, growth from half to all at most %.1f\n",
           MOST_TIMES, most_milliseconds(bytes), MOST_GROWTH);
    for (word i = 0; i < count; i++) {
        if (!above(all + i, bytes)) continue;
        if (many++ == 0) printf("above that:\n");
        printf("  %s: %s\n", CALLS[all[i].shape->call], all[i].shape->name);
    }
    if (many) printf("%lu of %lu shapes are above that\n", many, count);
    if (!many) printf("none of %lu shapes is above that\n", count);
}

int bench_worst(word bytes, const char *words) {
    static struct fared all[LINES];
    word ordinary[PARTS], count;
    char digits[DIGITS];
    printf("shapes that try to be slow, processor time, best of %d runs, one where it takes long; bytes are those of dataset and update\n\n", FEW);
    printf("%-61s", "call   shape");
    for (int part = 0; part < PARTS; part++) printf(" %12s", counted(part_of(bytes, part), digits));
    printf("    times   growth\n");
    if (!ordinary_line(bytes, ordinary)) return trouble("bench", "the ordinary dataset is not to be had");
    if (!worst_lines(all, &count, bytes, words, ordinary)) return TROUBLE;
    if (count == 0) return trouble("bench", "no shape has such a name");
    summed_up(all, count, bytes);
    return DONE;
}
