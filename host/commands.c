#include "commands.h"
#include "files.h"
#include "words.h"

int read_chart(const char *path) {
    struct file chart;
    word answer[EZDURVASH_NUMBERS];
    if (!loaded(path, &chart)) return TROUBLE;
    ezdurvash_read(chart.bytes, chart.length, answer, EZDURVASH_NUMBERS);
    return said(answer, 0);
}

int list_chart(const char *path) {
    static byte text[EZDURVASH_LISTING];
    struct file chart;
    if (!loaded(path, &chart)) return TROUBLE;
    word length = ezdurvash_list(chart.bytes, chart.length, text, EZDURVASH_LISTING);
    if (length == 0) return trouble(path, "there is too little room for its listing");
    printf("%.*s", (int)length, (const char *)text);
    return memcmp(text, "rec ", 4) == 0 ? DONE : REFUSED;
}

int show_fields(const char *path, const char *number) {
    char *behind, tag[5] = "";
    struct file chart;
    word field[EZDURVASH_FIELD], n, record = strtoul(number, &behind, 10);
    if (*number < '0' || *number > '9' || *behind) return trouble(number, "it is no record's number");
    if (!loaded(path, &chart)) return TROUBLE;
    for (n = 1; ezdurvash_field(chart.bytes, chart.length, record, n, field, EZDURVASH_FIELD); n++) {
        if (n == 1) printf("field tag       byte   bytes\n");
        for (int i = 0; i < 4; i++) tag[i] = printable(field[0] >> (24 - 8 * i));
        printf("%5lu %s %10lu %7lu\n", n, tag, field[1], field[2] - field[1]);
    }
    if (n == 1) printf("none: there is no record %lu, or one up to it is not in ISO 8211 form\n", record);
    return n == 1 ? REFUSED : DONE;
}

int write_chart(const char *path, const char *to) {
    static byte out[EZDURVASH_LONGEST];
    struct file chart;
    word answer[EZDURVASH_NUMBERS];
    if (!loaded(path, &chart) || !leads_elsewhere(to, &chart, "dataset")) return TROUBLE;
    word number = ezdurvash_write(chart.bytes, chart.length, out, EZDURVASH_LONGEST, answer, EZDURVASH_NUMBERS);
    if (number == 0 && !saved(to, out, answer[EZDURVASH_LENGTH])) return TROUBLE;
    return said(answer, 1);
}
