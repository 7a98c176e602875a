#include "parcels.h"
#include "packing.h"
#include "updates.h"
#include "words.h"

/* Of a longer name only the beginning is said. */
enum { MOST_SAID = 80 };

/* Says what a holding tells. */
static void say_holding(const byte *holding, word length) {
    char bytes[DIGITS];
    printf("done: ");
    for (word i = EZDURVASH_NAME_TOLD; i < length && i < EZDURVASH_NAME_TOLD + MOST_SAID; i++) printf("%c", printable(holding[i]));
    if (length > EZDURVASH_NAME_TOLD + MOST_SAID) printf("..");
    printf(", edition %lu, update number %lu, %s bytes\n", edition_told(holding), number_told(holding), counted(length, bytes));
}

int tell_holding(const char *path, const char *to) {
    static byte holding[EZDURVASH_HOLDING_LONGEST];
    struct file chart;
    word answer[EZDURVASH_NUMBERS];
    if (!loaded(path, &chart) || !leads_elsewhere(to, &chart, "dataset")) return TROUBLE;
    if (ezdurvash_tell(chart.bytes, chart.length, holding, EZDURVASH_HOLDING_LONGEST, answer, EZDURVASH_NUMBERS) != 0)
        return said(answer, 1);
    if (!saved(to, holding, answer[EZDURVASH_LENGTH])) return TROUBLE;
    say_holding(holding, answer[EZDURVASH_LENGTH]);
    return DONE;
}

int join_shelf(char **names, word count, const char *to) {
    struct updates updates = {.names = names, .count = count};
    word length;
    char bytes[DIGITS];
    if (gathered(&updates) != DONE || spared(&updates, to) != DONE) return TROUBLE;
    byte *shelf = joined(&updates, EZDURVASH_PARCEL_HEAD, packable, put_update_parcel, &length);
    if (!shelf || !saved(to, shelf, length)) return TROUBLE;
    printf("done: %lu parcel%s, %s bytes\n", count, count == 1 ? "" : "s", counted(length, bytes));
    return DONE;
}

int reply_parcel(const char *told, const char *kept, const char *to) {
    struct file holding, shelf;
    word answer[EZDURVASH_NUMBERS], result[EZDURVASH_REPLY];
    char start[DIGITS], bytes[DIGITS];
    if (!loaded(told, &holding) || !loaded(kept, &shelf)) return TROUBLE;
    if (!leads_elsewhere(to, &holding, "holding") || !leads_elsewhere(to, &shelf, "shelf")) return TROUBLE;
    word number = ezdurvash_reply(holding.bytes, holding.length, shelf.bytes, shelf.length, answer, EZDURVASH_NUMBERS, result,
                                  EZDURVASH_REPLY);
    if (number != 0) return said(answer, 1);
    if (!result[EZDURVASH_FOUND]) {
        printf("silence: nothing on the shelf follows the holding\n");
        return DONE;
    }
    if (!saved(to, shelf.bytes + result[EZDURVASH_START], result[EZDURVASH_PARCEL_LENGTH])) return TROUBLE;
    printf("done: update number %lu, %s bytes, from byte %s of the shelf on\n", number_told(holding.bytes) + 1,
           counted(result[EZDURVASH_PARCEL_LENGTH], bytes), counted(result[EZDURVASH_START], start));
    return DONE;
}

int take_parcel(const char *path, const char *given, const char *to) {
    static byte second[EZDURVASH_LONGEST], work[EZDURVASH_WORKSPACE];
    struct file chart, parcel;
    word answer[EZDURVASH_NUMBERS], stands[EZDURVASH_CHART];
    if (!loaded(path, &chart) || !loaded(given, &parcel)) return TROUBLE;
    if (!leads_elsewhere(to, &chart, "dataset") || !leads_elsewhere(to, &parcel, "parcel")) return TROUBLE;
    word number = ezdurvash_take(0, chart.length, chart.bytes, chart.length, second, EZDURVASH_LONGEST, parcel.bytes, parcel.length, work,
                                 EZDURVASH_WORKSPACE, answer, EZDURVASH_NUMBERS, stands, EZDURVASH_CHART);
    const byte *pools[2] = {chart.bytes, second};
    if (number == 0 && !saved(to, pools[stands[EZDURVASH_PLACE]], stands[EZDURVASH_CHART_LENGTH])) return TROUBLE;
    return said(answer, 1);
}
