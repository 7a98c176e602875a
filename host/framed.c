#include "framed.h"
#include "hash.h"
#include "little.h"

enum { HEAD = 17, LENGTH = 4 };

/* What the lent slices are filled with before a call. */
enum { FILLED = 0xa5 };

const char *const CUT = "the file ends inside it", *const NO_MEMORY = "there is no memory for its slices";

word unframed(const byte *at, word left, struct framed *one) {
    if (left < HEAD) return 0;
    one->operation = at[0];
    one->first_length = little_endian(at + 1, LENGTH);
    one->second_length = little_endian(at + 5, LENGTH);
    one->out_length = little_endian(at + 9, LENGTH);
    one->work_length = little_endian(at + 13, LENGTH);
    one->first = at + HEAD;
    one->second = one->first + one->first_length;
    word length = HEAD + one->first_length + one->second_length;
    return length <= left ? length : 0;
}

byte *lent(word length) {
    byte *slice = malloc(length + 1);
    if (slice) memset(slice, FILLED, length);
    return slice;
}

int all_zero(const byte *bytes, word length) {
    for (word i = 0; i < length; i++)
        if (bytes[i] != 0) return 0;
    return 1;
}

void print_words(const word answer[EZDURVASH_NUMBERS], word out_hash, int work_is_zero) {
    for (int i = 0; i < EZDURVASH_NUMBERS; i++) printf("%lu ", answer[i]);
    printf("%016lx %d", out_hash, work_is_zero);
}

void print_line(const word answer[EZDURVASH_NUMBERS], word out_hash, int work_is_zero) {
    print_words(answer, out_hash, work_is_zero);
    printf("\n");
}

const char *made_one(const struct framed *one, making *makes) {
    word answer[EZDURVASH_NUMBERS];
    byte *out = lent(one->out_length);
    if (!out) return NO_MEMORY;
    makes(one->first, one->first_length, out, one->out_length, answer, EZDURVASH_NUMBERS);
    print_line(answer, hash(out, one->out_length), 1);
    free(out);
    return 0;
}

const char *pooled_one(const struct framed *one, pooling *called) {
    byte *first = lent(one->first_length), *second = lent(one->out_length), *work = lent(one->work_length);
    const char *wrong = first && second && work ? 0 : NO_MEMORY;
    if (!wrong) {
        memcpy(first, one->first, one->first_length);
        called(one, first, second, work);
    }
    free(first);
    free(second);
    free(work);
    return wrong;
}
