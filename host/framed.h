/* A framed case, and what its answer needs: lent slices, and the words of a line. */
#ifndef EZ_FRAMED_H
#define EZ_FRAMED_H

#include "ezdurvash.h"
#include "system.h"

/* One case: what is asked, the bytes handed over, and how long the lent slices are. */
struct framed {
    word operation, first_length, second_length, out_length, work_length;
    const byte *first, *second;
};

/* What can be in the way of a case. */
extern const char *const CUT, *const NO_MEMORY;

/* The case at the beginning of so many bytes, and how long it is; 0 where they end inside it. */
word unframed(const byte *at, word left, struct framed *one);

/* A slice to lend, to be freed, filled so that zeroing shows; null where there is no memory. */
byte *lent(word length);

int all_zero(const byte *bytes, word length);

/* The words that every line but a listing's begins with, and a line that has no others. */
void print_words(const word answer[EZDURVASH_NUMBERS], word out_hash, int work_is_zero);
void print_line(const word answer[EZDURVASH_NUMBERS], word out_hash, int work_is_zero);

/* Answers a case with a line, by a function that makes an output of the first part; or says what is in the way. */
typedef word making(const byte *given, word given_length, byte *out, word out_length, word *answer, word answer_length);
const char *made_one(const struct framed *one, making *makes);

/* The same by a call with two pools, the first filled with the first part, the second the output, and a workspace; it prints the line. */
typedef void pooling(const struct framed *one, byte *first, byte *second, byte *work);
const char *pooled_one(const struct framed *one, pooling *called);

#endif
