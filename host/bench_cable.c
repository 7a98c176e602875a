#include "bench.h"
#include "invent.h"
#include "packing.h"
#include "plain.h"
#include "shapes.h"
#include "timing.h"
#include "words.h"

enum { MEBIBYTE = 1048576 };

/* The update number that the holding tells, that of the file which follows it, and that of all others. */
enum { TOLD = 1, FOLLOWING = 2, OTHER = 3 };

/* What is wanted: a reply takes so many times the plain walk. */
static const double MOST_TIMES = 1.0;

/* A kind of shelf: its files under a number are put at a place; how long they are is answered. */
struct shape {
    const char *name;
    word (*put)(byte *at, word number);
};

/* What the jobs work on, and what came of it. */
struct desk {
    word length, parcels, last; /* of the shelf; where its last parcel starts */
    byte holding[EZDURVASH_HOLDING_LONGEST];
    word holding_length;
    word answer[EZDURVASH_NUMBERS], result[EZDURVASH_REPLY];
    word sum;
};

/* Longer than every file here: two records of the longest, or a hundred short ones. */
enum { MOST_FILE = 262144 };

static byte shelf[EZDURVASH_LONGEST];
static struct record r;

/* ---- the jobs */

static void replies(void *at) {
    struct desk *desk = at;
    ezdurvash_reply(desk->holding, desk->holding_length, shelf, desk->length, desk->answer, EZDURVASH_NUMBERS, desk->result,
                    EZDURVASH_REPLY);
}

/* Splits every file on the shelf into its records and their fields. */
static void walks(void *at) {
    struct desk *desk = at;
    for (word start = 0, whole; start < desk->length; start += whole) {
        whole = whole_length(shelf + start);
        desk->sum += plain_walk(shelf + start + EZDURVASH_PARCEL_HEAD, whole - EZDURVASH_PARCEL_HEAD);
    }
}

/* ---- files */

/* An update of so many records, as a publisher makes them. */
static word put_invented(byte *at, word number, word records) {
    static const struct invented LARGE = {.records = MEBIBYTE};
    struct invented update = invented_update(&LARGE, number, records);
    if (!update.bytes) exit(trouble("bench", "there is no memory for an update"));
    memcpy(at, update.bytes, update.length);
    free(update.bytes);
    return update.length;
}

static word put_hundred(byte *at, word number) {
    return put_invented(at, number, 100);
}

static word put_one(byte *at, word number) {
    return put_invented(at, number, 1);
}

/* No bytes at all, but for the file that follows. */
static word put_none(byte *at, word number) {
    return number == OTHER ? 0 : put_one(at, number);
}

/* Two records, the second as it stands in r. */
static word put_behind_first(byte *at, word fields) {
    static struct record first;
    record_begin(&first);
    first.a = 1;
    for (word i = 0; i < fields; i++) {
        field_begin(&first, "0000");
        field_end(&first);
    }
    word length = put_record(at, &first, 1);
    return length + put_record(at + length, &r, 0);
}

static word put_bare(byte *at, word number) {
    general_record(&r, number);
    return put_behind_first(at, 1);
}

/* All others are the next update too, but of another chart. */
static word put_other_chart(byte *at, word number) {
    if (number != OTHER) return put_bare(at, number);
    named_record(&r, "EZOTHER", FOLLOWING);
    return put_behind_first(at, 1);
}

/* All others seem to follow: only the tests of their second record, which end with a field that no such record has, tell that they do not. */
static word put_broken(byte *at, word number) {
    if (number != OTHER) return put_bare(at, number);
    general_record(&r, FOLLOWING);
    field_begin(&r, "ZZZZ");
    field_end(&r);
    return put_behind_first(at, 1);
}

/* The first record has as many fields as fit. */
static word put_long_directory(byte *at, word number) {
    general_record(&r, number);
    return put_behind_first(at, MOST_FIELDS - 100);
}

/* The general record is as long as fits, by the seven tables that are not read. */
static word put_long_tables(byte *at, word number) {
    static const char *const TABLES[7] = {"DSSI", "ATCS", "ITCS", "FTCS", "IACS", "FACS", "ARCS"};
    general_record(&r, number);
    for (word table = 0; table < 7; table++) {
        field_begin(&r, TABLES[table]);
        for (word i = 0; i < 14200; i++) field_number(&r, 'x', 1);
        field_end(&r);
    }
    return put_behind_first(at, 1);
}

/* The name is as long as fits. */
static word put_long_name(byte *at, word number) {
    static char name[99800];
    memset(name, 'x', sizeof name - 1);
    named_record(&r, name, number);
    return put_behind_first(at, 1);
}

/* ---- the table */

/* The holding is told of a file under that number. Its first two records are enough, in which updates and datasets are alike. */
static void holding_told(struct desk *desk, const struct shape *shape) {
    word length = shape->put(shelf, TOLD);
    ezdurvash_tell(shelf, length, desk->holding, EZDURVASH_HOLDING_LONGEST, desk->answer, EZDURVASH_NUMBERS);
    desk->holding_length = desk->answer[EZDURVASH_LENGTH];
}

/* Fills a shelf of so many bytes with one file that does not follow the holding, over and over, and puts one that does behind. */
static void laid_out(struct desk *desk, const struct shape *shape, word bytes) {
    static byte following[MOST_FILE], other[MOST_FILE];
    word following_length = shape->put(following, FOLLOWING), other_length = shape->put(other, OTHER);
    word room = bytes - EZDURVASH_PARCEL_HEAD - following_length;
    byte *at = shelf;
    for (desk->parcels = 1; (word)(at - shelf) + EZDURVASH_PARCEL_HEAD + other_length <= room; desk->parcels++)
        at = put_update_parcel(at, other, other_length);
    desk->last = (word)(at - shelf);
    desk->length = (word)(put_update_parcel(at, following, following_length) - shelf);
}

/* Whether the holding was answered with the last parcel; if not, it is said. */
static int good(const struct desk *desk, const char *name) {
    const word *result = desk->result;
    int answered = desk->answer[EZDURVASH_NUMBER] == 0 && result[EZDURVASH_FOUND] == 1;
    if (answered && result[EZDURVASH_START] == desk->last && result[EZDURVASH_PARCEL_LENGTH] == desk->length - desk->last) return 1;
    trouble(name, "the holding is not answered with the last parcel");
    return 0;
}

static int cable_line(const struct shape *shape, word bytes) {
    static job *const JOBS[] = {replies, walks};
    static struct desk desk;
    word took[2];
    char parcels[DIGITS];
    holding_told(&desk, shape);
    laid_out(&desk, shape, bytes);
    best(JOBS, 2, &desk, took);
    double many = times(took[0], took[1]);
    printf("%-44s %11s %9.3f ms %9.3f ms %8.2f%s\n", shape->name, counted(desk.parcels, parcels), milliseconds(took[0]),
           milliseconds(took[1]), many, many > MOST_TIMES ? "  *" : "");
    fflush(0);
    return good(&desk, shape->name);
}

int bench_cable(word mebibytes) {
    static const struct shape SHELVES[] = {
        {"updates of 100 records", put_hundred},
        {"updates of one record", put_one},
        {"updates of no record", put_bare},
        {"updates of other charts, no record", put_other_chart},
        {"updates with a wrong general record", put_broken},
        {"empty parcels", put_none},
        {"general records with long tables", put_long_tables},
        {"first records of 9,000 fields", put_long_directory},
        {"names as long as fit", put_long_name},
    };
    char bytes[DIGITS];
    printf("a holding answered by the last parcel of a shelf of %s bytes, against a plain walk over all its files, processor time, best of %d runs\n\n",
           counted(mebibytes * MEBIBYTE, bytes), RUNS);
    printf("shelf of                                         parcels        reply   plain walk    times\n");
    for (word i = 0; i < sizeof SHELVES / sizeof *SHELVES; i++)
        if (!cable_line(SHELVES + i, mebibytes * MEBIBYTE)) return TROUBLE;
    printf("\nwanted: a reply at most %.1f of the plain walk; lines above that have a star\n", MOST_TIMES);
    return DONE;
}
