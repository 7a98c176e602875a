#include "months.h"
#include "files.h"
#include "lists.h"
#include "updates.h"
#include "words.h"

/* What is asked, the memory that is lent, and what comes of it. */
struct month {
    struct file chart;
    struct updates updates;
    byte *list, *first, *second;
    word list_length, first_length;
    word answer[EZDURVASH_NUMBERS], result[EZDURVASH_MONTH];
};

/* Fills the first pool. A dataset that is too long for any pool gets one as long as itself, so that it is refused for its length (14) and
   not for running past its pool. 0 where there is no memory for it, which is said. */
static int pooled(struct month *month) {
    static byte second[EZDURVASH_LONGEST];
    word length = month->chart.length;
    month->first_length = length > EZDURVASH_LONGEST ? length : EZDURVASH_LONGEST;
    month->first = malloc(month->first_length);
    month->second = second;
    if (month->first) memcpy(month->first, month->chart.bytes, length);
    if (!month->first) trouble("update", "there is no memory for the first pool");
    return month->first != 0;
}

static void called(struct month *month) {
    static byte work[EZDURVASH_WORKSPACE];
    ezdurvash_month(month->list, month->list_length, month->first, month->first_length, month->chart.length, month->second,
                    EZDURVASH_LONGEST, work, EZDURVASH_WORKSPACE, month->answer, EZDURVASH_NUMBERS, month->result, EZDURVASH_MONTH);
}

/* Says of each of several updates what became of it. */
static void told_each(const struct month *month) {
    for (word i = 0; i < month->updates.count; i++) {
        printf("%s: ", month->updates.names[i]);
        if (i == month->result[EZDURVASH_APPLIED]) {
            said(month->answer, 1);
        } else {
            printf(i < month->result[EZDURVASH_APPLIED] ? "done\n" : "not tried\n");
        }
    }
}

/* Says what became of the updates and the chart; a status of the tool. */
static int told(const struct month *month) {
    word applied = month->result[EZDURVASH_APPLIED], count = month->updates.count;
    char bytes[DIGITS];
    if (count > 1) told_each(month);
    if (count == 1 || applied == count) return said(month->answer, 1);
    if (applied == 0) {
        printf("none applied\n");
    } else {
        printf("%lu of %lu applied: %s bytes\n", applied, count, counted(month->result[EZDURVASH_RESULT_LENGTH], bytes));
    }
    return REFUSED;
}

int update_chart(const char *path, char **updates, word count, const char *to) {
    struct month month = {.updates = {.names = updates, .count = count}};
    if (!loaded(path, &month.chart) || gathered(&month.updates) != DONE) return TROUBLE;
    if (!leads_elsewhere(to, &month.chart, "dataset") || spared(&month.updates, to) != DONE) return TROUBLE;
    month.list = joined(&month.updates, LENGTH_BYTES, listable, put_in_list, &month.list_length);
    if (!month.list || !pooled(&month)) return TROUBLE;
    called(&month);
    const byte *chart = month.result[EZDURVASH_POOL] == 2 ? month.second : month.first;
    if (month.result[EZDURVASH_APPLIED] > 0 && !saved(to, chart, month.result[EZDURVASH_RESULT_LENGTH])) return TROUBLE;
    return told(&month);
}
