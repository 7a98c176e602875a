#include "batch.h"
#include "files.h"
#include "framed.h"
#include "hash.h"
#include "lists.h"
#include "little.h"
#include "words.h"

enum { READ = 1, WRITE = 2, UPDATE = 3, LISTING = 4, MONTH = 9, REPLY = 11, TAKE = 12, TELL = 13, OPERATIONS };

/* Answers a case of an operation with a line; or says what is in the way. */
typedef const char *answering(const struct framed *one);

static const char *read_one(const struct framed *one) {
    word answer[EZDURVASH_NUMBERS];
    ezdurvash_read(one->first, one->first_length, answer, EZDURVASH_NUMBERS);
    print_line(answer, hash(0, 0), 1);
    return 0;
}

static const char *listed_one(const struct framed *one) {
    static byte text[EZDURVASH_LISTING];
    word length = ezdurvash_list(one->first, one->first_length, text, EZDURVASH_LISTING);
    printf("listing %lu %016lx\n", length, hash(text, length));
    return 0;
}

static const char *written_one(const struct framed *one) {
    return made_one(one, ezdurvash_write);
}

/* The call of an update, its slices lent. */
static void update_called(const struct framed *one, byte *out, byte *work) {
    word answer[EZDURVASH_NUMBERS];
    ezdurvash_update(one->first, one->first_length, one->second, one->second_length, out, one->out_length, work, one->work_length,
                     answer, EZDURVASH_NUMBERS);
    print_line(answer, hash(out, one->out_length), all_zero(work, one->work_length));
}

static const char *updated_one(const struct framed *one) {
    byte *out = lent(one->out_length), *work = lent(one->work_length);
    const char *wrong = out && work ? 0 : NO_MEMORY;
    if (!wrong) update_called(one, out, work);
    free(out);
    free(work);
    return wrong;
}

/* The second part is the dataset's length in the first pool, then the list. */
static void month_called(const struct framed *one, byte *first, byte *second, byte *work) {
    word answer[EZDURVASH_NUMBERS], result[EZDURVASH_MONTH], size = little_endian(one->second, LENGTH_BYTES);
    ezdurvash_month(one->second + LENGTH_BYTES, one->second_length - LENGTH_BYTES, first, one->first_length, size, second, one->out_length,
                    work, one->work_length, answer, EZDURVASH_NUMBERS, result, EZDURVASH_MONTH);
    print_words(answer, hash_on(hash(first, one->first_length), second, one->out_length), all_zero(work, one->work_length));
    printf(" %lu %lu %lu\n", result[EZDURVASH_APPLIED], result[EZDURVASH_POOL], result[EZDURVASH_RESULT_LENGTH]);
}

static const char *month_one(const struct framed *one) {
    return one->second_length < LENGTH_BYTES ? CUT : pooled_one(one, month_called);
}

static const char *replied_one(const struct framed *one) {
    word answer[EZDURVASH_NUMBERS], result[EZDURVASH_REPLY];
    ezdurvash_reply(one->first, one->first_length, one->second, one->second_length, answer, EZDURVASH_NUMBERS, result, EZDURVASH_REPLY);
    print_words(answer, hash(0, 0), 1);
    printf(" %lu %lu %lu\n", result[EZDURVASH_FOUND], result[EZDURVASH_START], result[EZDURVASH_PARCEL_LENGTH]);
    return 0;
}

/* The chart fills the first pool. */
static void take_called(const struct framed *one, byte *first, byte *second, byte *work) {
    word answer[EZDURVASH_NUMBERS], chart[EZDURVASH_CHART];
    ezdurvash_take(0, one->first_length, first, one->first_length, second, one->out_length, one->second, one->second_length, work,
                   one->work_length, answer, EZDURVASH_NUMBERS, chart, EZDURVASH_CHART);
    print_words(answer, hash(second, one->out_length), all_zero(work, one->work_length));
    printf(" %lu\n", chart[EZDURVASH_CHART_LENGTH]);
}

static const char *taken_one(const struct framed *one) {
    return pooled_one(one, take_called);
}

static const char *told_one(const struct framed *one) {
    return made_one(one, ezdurvash_tell);
}

static const char *answered(const struct framed *one) {
    static answering *const ANSWERS[OPERATIONS] = {
        [READ] = read_one,   [WRITE] = written_one, [UPDATE] = updated_one, [LISTING] = listed_one,
        [MONTH] = month_one, [REPLY] = replied_one, [TAKE] = taken_one,     [TELL] = told_one};
    answering *answer = one->operation < OPERATIONS ? ANSWERS[one->operation] : 0;
    return answer ? answer(one) : "there is no such operation";
}

int batch(const char *path) {
    struct file cases;
    struct framed one;
    if (!loaded(path, &cases)) return TROUBLE;
    word at = 0;
    for (word count = 1; at < cases.length; count++) {
        char what[64];
        word length = unframed(cases.bytes + at, cases.length - at, &one);
        const char *wrong = length == 0 ? CUT : answered(&one);
        if (wrong) {
            snprintf(what, sizeof what, "case %lu: %s", count, wrong);
            return trouble(path, what);
        }
        at += length;
    }
    return DONE;
}
