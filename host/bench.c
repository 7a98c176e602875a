#include "bench.h"
#include "invent.h"
#include "plain.h"
#include "timing.h"
#include "words.h"

enum { MEBIBYTE = 1048576 };

/* What a job works on. */
struct desk {
    struct invented dataset;
    word answer[EZDURVASH_NUMBERS];
    word sum;
};

/* Where the writing jobs write. */
static byte out[EZDURVASH_LONGEST];

static void reads(void *at) {
    struct desk *desk = at;
    ezdurvash_read(desk->dataset.bytes, desk->dataset.length, desk->answer, EZDURVASH_NUMBERS);
}

static void walks(void *at) {
    struct desk *desk = at;
    desk->sum += plain_walk(desk->dataset.bytes, desk->dataset.length);
}

static void writes(void *at) {
    struct desk *desk = at;
    ezdurvash_write(desk->dataset.bytes, desk->dataset.length, out, desk->dataset.length, desk->answer, EZDURVASH_NUMBERS);
}

static void copies(void *at) {
    struct desk *desk = at;
    plain_copy(out, desk->dataset.bytes, desk->dataset.length);
}

/* Lays out a dataset; 0 where there is no memory for it, which is then said. */
static int laid(struct desk *desk, word length, int wishes) {
    desk->sum = 0;
    desk->dataset = invented(length, wishes);
    if (desk->dataset.bytes) return 1;
    trouble("bench", "there is no memory for the dataset");
    return 0;
}

/* Whether the last call was done and counted every record; if not, it is said. */
static int good(struct desk *desk) {
    word number = desk->answer[EZDURVASH_NUMBER];
    if (number == 0 && desk->answer[EZDURVASH_COUNT] == desk->dataset.records) return 1;
    trouble("bench", number ? meaning(number) : "the records are miscounted");
    return 0;
}

/* One line of the reader's table of sizes; the time of read, or 0 for trouble. `before` is the time of half the size, or 0. */
static word read_line(word length, word before) {
    static job *const JOBS[] = {reads, walks};
    struct desk desk;
    word took[2];
    char bytes[DIGITS], records[DIGITS];
    if (!laid(&desk, length, 0)) return 0;
    best(JOBS, 2, &desk, took);
    printf("%12s %9s %9.1f ms %9.2f ms %8.1f", counted(length, bytes), counted(desk.dataset.records, records),
           milliseconds(took[0]), milliseconds(took[1]), times(took[0], took[1]));
    if (before > 0) printf(" %8.2f", times(took[0], before));
    printf("\n");
    fflush(0);
    free(desk.dataset.bytes);
    return good(&desk) ? took[0] : 0;
}

/* One line of the reader's table of orders. */
static int order_line(const char *name, word length, int wishes, word sorted) {
    static job *const JOBS[] = {reads};
    struct desk desk;
    word took[1];
    if (!laid(&desk, length, wishes)) return 0;
    best(JOBS, 1, &desk, took);
    printf("  %-52s %9.1f ms %8.1f\n", name, milliseconds(took[0]), times(took[0], sorted));
    fflush(0);
    free(desk.dataset.bytes);
    return good(&desk);
}

static int orders(word length, word sorted) {
    char bytes[DIGITS];
    printf("\nother orders, %s bytes                                       read   times sorted\n", counted(length, bytes));
    fflush(0);
    return order_line("references in random order", length, MIXED_REFERENCES, sorted) &&
           order_line("keys in random order", length, MIXED_KEYS, sorted) &&
           order_line("both", length, MIXED_KEYS | MIXED_REFERENCES, sorted) &&
           order_line("sorted RCIDs strewn over 32 bits", length, STREWN_KEYS, sorted) &&
           order_line("the same, references in random order", length, STREWN_KEYS | MIXED_REFERENCES, sorted) &&
           order_line("strewn RCIDs, keys and references in random order", length,
                      STREWN_KEYS | MIXED_KEYS | MIXED_REFERENCES, sorted);
}

/* The lines of a table for an eighth, a quarter, a half and all of so many MiB; what the last line took, or 0 for trouble. */
static word lines(word (*line)(word length, word before), word mebibytes) {
    word took = 0;
    for (word part = 8; part > 0; part /= 2) {
        took = line(mebibytes * MEBIBYTE / part, took);
        if (took == 0) return 0;
    }
    return took;
}

int bench_read(word mebibytes) {
    printf("read against a plain walk over the same sorted dataset, processor time, best of %d runs\n\n", RUNS);
    printf("       bytes   records         read   plain walk    times   growth\n");
    word took = lines(read_line, mebibytes);
    return took > 0 && orders(mebibytes * MEBIBYTE, took) ? DONE : TROUBLE;
}

/* One line of the writer's table; the time of write, or 0 for trouble. `before` is the time of half the size, or 0. */
static word write_line(word length, word before) {
    static job *const JOBS[] = {copies, reads, writes};
    struct desk desk;
    word took[3];
    char bytes[DIGITS];
    if (!laid(&desk, length, 0)) return 0;
    best(JOBS, 3, &desk, took);
    printf("%12s %9.1f ms %9.1f ms %9.2f ms %12.2f %11.1f", counted(length, bytes), milliseconds(took[2]), milliseconds(took[1]),
           milliseconds(took[0]), times(took[2], took[1]) - 1, times(took[2], took[0]));
    if (before > 0) printf(" %8.2f", times(took[2], before));
    printf("\n");
    fflush(0);
    int same = memcmp(out, desk.dataset.bytes, length) == 0;
    if (!same) trouble("bench", "the dataset is not its own written form");
    free(desk.dataset.bytes);
    return same && good(&desk) ? took[2] : 0;
}

int bench_write(word mebibytes) {
    printf("write against read and a plain copy of the same sorted dataset, processor time, best of %d runs\n\n", RUNS);
    printf("       bytes        write         read         copy  beyond read  times copy   growth\n");
    return lines(write_line, mebibytes) > 0 ? DONE : TROUBLE;
}
